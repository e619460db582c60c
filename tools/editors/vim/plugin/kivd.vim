" kivd for Vim: :KivdSend sends the unit, theorem or proof at the cursor, :KivdCheck checks the whole file.
" Both take the text as it stands in the buffer; nothing is written. g:kivd_tools is the folder of kivd-send.
if exists("g:loaded_kivd")
  finish
endif
let g:loaded_kivd = 1
let g:kivd_tools = get(g:, 'kivd_tools', resolve(expand('<sfile>:p:h:h:h:h')))

" What a tool answers to the buffer's text; the words come before the name.
function! s:Lines(tool, words, place)
  let name = empty(expand('%')) ? 'buffer' : expand('%')
  let command = map([g:kivd_tools . '/' . a:tool, '--stdin'] + a:words + [name] + a:place, 'shellescape(v:val)')
  return systemlist(join(command) . ' 2>/dev/null', join(getline(1, '$'), "\n") . "\n")
endfunction

function! s:Show(line)
  let found = matchlist(a:line, '^.\{-}:\(\d\+\):\(\d\+\): \(.*\)$')
  if empty(found)
    echohl WarningMsg | echomsg 'kivd: ' . (a:line ==# '' ? 'no answer' : a:line) | echohl None
    return
  endif
  if found[3] !~# ': \(proved\|ok\)$'
    normal! m'
    call setcursorcharpos(str2nr(found[1]), str2nr(found[2]))
  endif
  echomsg found[3]
endfunction

function! s:Send()
  call s:Show(get(s:Lines('kivd-send', [], [line('.') . ':' . charcol('.')]), 0, ''))
endfunction

function! s:Check()
  let lines = s:Lines('kivcheck', ['--quiet'], [])
  call setqflist([], ' ', {'lines': lines, 'efm': '%f:%l:%c: %m,%-G%.%#', 'title': 'kivcheck'})
  if !empty(getqflist())
    cwindow
  endif
  echomsg get(lines, -1, 'kivcheck: no answer')
endfunction

command! KivdSend call s:Send()
command! KivdCheck call s:Check()
