" Fortress, as docs/LANGUAGE.md has it in its chapters "Tokens" and "Operators".
if exists('b:current_syntax')
  finish
endif
let s:cpo = &cpo
set cpo&vim

syn case match
syn sync fromstart
" Letters, digits, `_` and the middle dot go on with a name; × and ÷ don't.
syn iskeyword 48-57,65-90,95,97-122,170,181,183,186,192-214,216-246,248-255

" Of matches that begin at one place the one that stands last here counts; keywords go before all.
" What begins no token:
syn match fssFault /[^ \t\r\x0c]/

syn match fssPunctuation /\[\\\|\\\]\|[()[\]{},;.⟦⟧]/
syn match fssSign /[-=+<>^#:≡≠≤≥×∧∨¬]/
syn match fssSign /===\|=\/=\|<=\|>=/
syn match fssArrow /<-\|->\|=>\|[←→⇒]/
syn match fssAssign /:=\|+=\|-=/
syn match fssReduction /[∑∏]/

syn match fssName /\K\k*/ contains=fssHidden
syn match fssCalled /\K\k*\ze(\*\@!/
syn match fssHidden /\%ufeff/ contained
" A middle dot inside a name belongs to it; one that begins a token is the operator.
syn match fssSign /·/
syn match fssOwnOperator /\%(\([A-Z]\)\%(\1\|_\)*\k\@!\)\@![A-Z][A-Z_]*[A-Z]\k\@!/
syn match fssNumber /\d\+/ nextgroup=fssJoined
syn match fssJoined /\k/ contained

syn region fssText start=/"/ skip=/\\./ end=/"\|$/ oneline contains=fssEscape,fssTextFault,@Spell
syn match fssTextFault /\\.\?\|[[:cntrl:]\u0080-\u009f]/ contained
syn match fssEscape /\\[nt"\\]/ contained
syn region fssComment start=/(\*/ end=/\*)/ contains=fssComment,@Spell
syn match fssLineComment /(\*).*$/ contains=@Spell

syn match fssTypeName /\K\k*/ contained
syn keyword fssDeclaration component api trait object nextgroup=fssTypeName skipwhite
syn keyword fssDeclaration import export extends excludes comprises opr var fn array
syn keyword fssControl do also if then elif else while for seq case typecase of
syn keyword fssControl try catch finally throw spawn end
syn keyword fssAtomic atomic tryatomic
syn keyword fssReduction BIG SUM PROD
syn keyword fssConstant true false
syn keyword fssSelf self
syn keyword fssOperator TIMES DOT DIV REM MOD MAX MIN GCD LCM
syn keyword fssOperator BITAND BITOR BITXOR LSHIFT RSHIFT AND OR NOT
syn keyword fssType Any Object Exception ZZ32 ZZ64 String Boolean Range Array
syn keyword fssException IntegerOverflow DivisionByZero NegativeExponent IndexOutOfRange
syn keyword fssException NegativeSize EmptyReduction MatchFailure DepthExceeded
syn keyword fssException TryAtomicFailure AbortOutside
syn keyword fssBuiltIn println print abort widen narrow length

hi def link fssFault Error
hi def link fssJoined Error
hi def link fssHidden Error
hi def link fssTextFault Error
hi def link fssPunctuation Delimiter
hi def link fssSign Operator
hi def link fssArrow Operator
hi def link fssAssign Operator
hi def link fssOperator Operator
hi def link fssOwnOperator Operator
hi def link fssReduction Operator
hi def link fssCalled Function
hi def link fssNumber Number
hi def link fssText String
hi def link fssEscape SpecialChar
hi def link fssComment Comment
hi def link fssLineComment Comment
hi def link fssTypeName Type
hi def link fssDeclaration Structure
hi def link fssControl Statement
hi def link fssAtomic PreProc
hi def link fssConstant Boolean
hi def link fssSelf Special
hi def link fssType Type
hi def link fssException Type
hi def link fssBuiltIn Function

let b:current_syntax = 'fortress'
let &cpo = s:cpo
unlet s:cpo
