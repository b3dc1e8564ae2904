" ALE for Vim: shows errors while a file is typed, by cool-lsp.
let s:server = fnamemodify(resolve(expand('<sfile>:p')), ':h:h:h:h') . '/cool-lsp'

function! s:root(buffer) abort
  let l:list = ale#path#FindNearestFile(a:buffer, 'cool.files')
  return fnamemodify(empty(l:list) ? bufname(a:buffer) : l:list, ':p:h')
endfunction

call ale#linter#Define('cool', {
\ 'name': 'cool-lsp',
\ 'lsp': 'stdio',
\ 'executable': s:server,
\ 'command': '%e',
\ 'project_root': function('s:root'),
\})
