" A note counts characters, and the quickfix list counts bytes: changes the columns of a list that
" `:make` has just filled. {command} is `make` or `lmake`.
function fortress#columns(command) abort
  if get(b:, 'current_compiler', get(g:, 'current_compiler', '')) !=# 'fortress'
    return
  endif
  let items = a:command ==# 'lmake' ? getloclist(0) : getqflist()
  for item in items
    if item.valid && item.bufnr && item.lnum
      call bufload(item.bufnr)
      let line = get(getbufline(item.bufnr, item.lnum), 0, '')
      let item.col = max([byteidxcomp(line, item.col - 1), 0]) + 1
      let item.text = 'rule ' .. item.nr .. ' ' .. item.text
    endif
  endfor
  if a:command ==# 'lmake'
    call setloclist(0, [], 'r', {'items': items})
  else
    call setqflist([], 'r', {'items': items})
  endif
endfunction
