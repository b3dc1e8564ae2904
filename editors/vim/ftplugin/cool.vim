" Vim: comments, file names and the compiler of a buffer with Cool.
if exists('b:did_ftplugin')
  finish
endif
let b:did_ftplugin = 1
setlocal commentstring=--\ %s comments=sr:(*,mb:*,ex:*),:-- suffixesadd=.cl
compiler cool
let b:undo_ftplugin = 'setlocal commentstring< comments< suffixesadd< makeprg< errorformat<'
