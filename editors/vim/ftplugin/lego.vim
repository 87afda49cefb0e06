" Runs lego on the buffer: the answers go to a window, the refusals to the quickfix list.
if exists('b:did_ftplugin')
  finish
endif
let b:did_ftplugin = 1

setlocal comments=sr:(*,mb:*,ex:*) commentstring=(*\ %s\ *)
setlocal iskeyword=a-z,A-Z,48-57,_,'
command! -buffer LegoRun call s:Run()
nnoremap <buffer> <silent> <LocalLeader>r :LegoRun<CR>
let b:undo_ftplugin = 'setlocal comments< commentstring< iskeyword< | delcommand LegoRun'

if exists('*s:Run')
  finish
endif

" The refusals among the answers, as entries of the quickfix list. What stands below one, as a cycle, goes with it.
function! s:Refusals(answers, buffer) abort
  let l:found = []
  for l:line in a:answers
    let l:parts = matchlist(l:line, '^refused \(\d\+\):\(\d\+\) \(\d\+\) \(.*\)$')
    if !empty(l:parts)
      call add(l:found, {'bufnr': a:buffer, 'lnum': str2nr(l:parts[1]), 'col': str2nr(l:parts[2]),
            \ 'nr': str2nr(l:parts[3]), 'text': l:parts[4], 'type': 'E'})
    elseif l:line =~# '^  ' && !empty(l:found)
      call add(l:found, {'text': l:line})
    endif
  endfor
  return l:found
endfunction

function! s:Run() abort
  let l:buffer = bufnr('%')
  let l:program = get(g:, 'lego_program', 'lego')
  let l:answers = systemlist(l:program, join(getline(1, '$'), "\n") . "\n")
  let l:status = v:shell_error
  call s:Show(l:answers + ['(* status ' . l:status . ' *)'])
  call setqflist([], ' ', {'title': l:program, 'items': s:Refusals(l:answers, l:buffer)})
  if empty(getqflist())
    cclose
    echo 'lego: status ' . l:status
  else
    botright copen
    cfirst
  endif
endfunction

" Puts lines into the window of answers, which is opened where there is none.
function! s:Show(lines) abort
  let l:window = win_getid()
  let l:shown = bufwinid('lego answers')
  if l:shown == -1
    silent botright 10new lego\ answers
    setlocal buftype=nofile bufhidden=hide noswapfile syntax=lego
  else
    call win_gotoid(l:shown)
  endif
  silent %delete _
  call setline(1, a:lines)
  call win_gotoid(l:window)
endfunction
