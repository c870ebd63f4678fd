" What belongs to a buffer with a component: comments, two spaces, the compiler, and digraphs.
if exists('b:did_ftplugin')
  finish
endif
let b:did_ftplugin = 1
let s:cpo = &cpo
set cpo&vim

setlocal commentstring=(*%s*)
setlocal comments=s:(*,m:\ \ \ ,e:*)
setlocal formatoptions-=t
setlocal expandtab shiftwidth=2 softtabstop=2
setlocal suffixesadd=.fss
compiler fortress
let b:undo_ftplugin = 'setlocal cms< com< fo< et< sw< sts< sua< mp< efm<'

" Vim has digraphs for all other signs of the language: :help digraph-table-mbyte.
digraphs [[ 10214 ]] 10215

let &cpo = s:cpo
unlet s:cpo
