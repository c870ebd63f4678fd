" Indents a line by the one above: deeper behind a line that opens a block or ends with `=`, and
" less deep at an `end` and at what goes on with a form. Lines inside comments stay where they are.
if exists('b:did_indent')
  finish
endif
let b:did_indent = 1

setlocal indentexpr=FortressIndent()
setlocal indentkeys=!^F,o,O,0=end,0=also,0=elif,0=else,0=catch,0=finally
let b:undo_indent = 'setlocal inde< indk<'

if exists('*FortressIndent')
  finish
endif

let s:opens = '\C\k\@1<!\%(do\|then\|else\|of\|try\|finally\|catch\s\+\k\+\)\s*$'
let s:heads = '\C^\s*\%(trait\|object\)\k\@!\%(.*\k\@1<!end\k\@!\)\@!'
let s:closes = '\C^\s*\%(end\|also\|elif\|else\%(\s*\%(=>\|⇒\)\)\@!\|catch\|finally\)\k\@!'
let s:begin = '\C\<\%(\%(also\s\+\)\@<!do\|if\|case\|typecase\|try\|trait\|object\|component\)\>'
let s:skip = "synIDattr(synID(line('.'), col('.'), 1), 'name') =~# 'Comment\\|Text'"

" Whether a line's first character that is no white space stands in a comment.
function s:IsComment(line)
  let column = indent(a:line) >= 0 ? matchend(getline(a:line), '^\s*') + 1 : 1
  return synIDattr(synID(a:line, column, 1), 'name') =~# 'Comment'
endfunction

" The number of the nearest line above that has code at its front, or 0.
function s:Above(line)
  let above = prevnonblank(a:line - 1)
  while above > 0 && s:IsComment(above)
    let above = prevnonblank(above - 1)
  endwhile
  return above
endfunction

" Whether the file is an API, in which `trait` and `object` open nothing: its first code says so.
function s:IsApi()
  let line = nextnonblank(1)
  while line > 0 && s:IsComment(line)
    let line = nextnonblank(line + 1)
  endwhile
  return getline(line) =~# '^\s*api\k\@!'
endfunction

" A line without the comment at its end.
function s:Code(line)
  let text = getline(a:line)
  let at = match(text, '(\*')
  while at >= 0 && synIDattr(synID(a:line, at + 1, 1), 'name') !~# 'Comment'
    let at = match(text, '(\*', at + 1)
  endwhile
  return at < 0 ? text : strpart(text, 0, at)
endfunction

" The line on which the form begins that ends on this one.
function s:Begin(line)
  if getline(a:line) !~# '^\s*end\k\@!'
    return a:line
  endif
  call cursor(a:line, matchend(getline(a:line), '^\s*') + 1)
  let found = searchpair(s:begin, '', '\C\<end\>', 'bnW', s:skip)
  return found > 0 ? found : a:line
endfunction

function FortressIndent()
  let above = s:Above(v:lnum)
  if synIDattr(synID(v:lnum, 1, 1), 'name') =~# 'Comment' && getline(v:lnum) !~# '^\s*(\*'
    return -1
  elseif above == 0
    return 0
  endif
  let code = s:Code(above)
  let indent = indent(above)
  if code =~# s:opens || code =~# s:heads && !s:IsApi() || code =~# '=>\?\s*$'
    let indent += shiftwidth()
  elseif s:Code(s:Above(s:Begin(above))) =~# '=>\?\s*$'
    let indent -= shiftwidth()
  endif
  return getline(v:lnum) =~# s:closes ? indent - shiftwidth() : indent
endfunction
