" `:make` checks the file, and the note of a refused one goes to the quickfix list.
" The program is ./fortress, or the one that g:fortress_program names.
if exists('current_compiler')
  finish
endif
let current_compiler = 'fortress'
let s:cpo = &cpo
set cpo&vim

let s:program = shellescape(get(g:, 'fortress_program', './fortress'), 1)
execute 'CompilerSet makeprg=' .. escape(s:program .. ' check -- %:S', ' \|"')
CompilerSet errorformat=%f:%l:%c:\ rule\ %n\ %m,%-Gaccepted

augroup fortress_compiler
  autocmd!
  autocmd QuickFixCmdPost make,lmake call fortress#columns(expand('<amatch>'))
augroup END

let &cpo = s:cpo
unlet s:cpo
