" After `:compiler cool`, `:make` checks the file, and `:make stack.cl node.cl` checks it together with these files.
if exists('current_compiler')
  finish
endif
let current_compiler = 'cool'
" The program beside these files, in an installation or a repository, else the one on PATH.
let s:program = fnamemodify(resolve(expand('<sfile>:p')), ':h:h:h:h') . '/cool'
let &l:makeprg = (executable(s:program) ? fnameescape(s:program) : 'cool') . ' check %:S'
CompilerSet errorformat=%f:%l:\ %m
