" The faults of a JSON document in the quickfix list, each time its buffer is read or written. In a vimrc:
"
"     let g:yanglive_words = ['--profile', 'rfc', '--unjudged', 'must,when']
"     let g:yanglive_modules = ['/etc/yang/net.yang', '/etc/yang/site.yang']
"     source yanglive.vim
"
" A fault leads to the first line that has the name of its node.

function! s:Item(buffer, fault) abort
  let name = matchstr(substitute(a:fault['yanglive:path'], '\[\d\+\]', '', 'g'), '[^/:]*$')
  return {'bufnr': a:buffer, 'pattern': '\V"\%(\[^":]\+:\)\?' .. name .. '"', 'type': 'E',
        \ 'text': a:fault['yanglive:path'] .. ': ' .. a:fault['error-message']}
endfunction

function! s:Show(items) abort
  call setqflist([], 'r', {'title': 'yanglive', 'items': a:items})
  execute empty(a:items) ? 'cclose' : 'botright cwindow | wincmd p'
endfunction

function! s:Answered(buffer, channel, line) abort
  call s:Show(map(json_decode(a:line).faults, {_, fault -> s:Item(a:buffer, fault)}))
endfunction

" A module or the document is refused.
function! s:Refused(buffer, channel, line) abort
  if a:line !~# '^not judged:'
    call s:Show([{'bufnr': a:buffer, 'lnum': 1, 'type': 'E', 'text': a:line}])
  endif
endfunction

function! s:Ask() abort
  let words = ['yanglive', 'session'] + get(g:, 'yanglive_words', []) + [expand('%:p')] + g:yanglive_modules
  let job = job_start(words, {'out_cb': function('s:Answered', [bufnr()]), 'err_cb': function('s:Refused', [bufnr()])})
  call ch_sendraw(job, "faults\nend\n")
endfunction

augroup yanglive
  autocmd!
  autocmd BufReadPost,BufWritePost *.json call s:Ask()
augroup END
