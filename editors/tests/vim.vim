" In Vim, with a file of one fault open, and with ALE where $COOL_ALE is 1: writes what is told to $COOL_SAID.
let s:said = []

" Until so many are told, and each with its range, which is explained later than it is told.
function s:wait(count)
  for s:turn in range(600)
    if len(getloclist(0)) == a:count && (a:count == 0 || getloclist(0)[0].end_col - getloclist(0)[0].col < 2)
      break
    endif
    sleep 50m
  endfor
  call extend(s:said, map(getloclist(0), {_, found -> found.lnum . ':' . found.col . ' ' . found.text}))
  call add(s:said, len(getloclist(0)) . ' told')
endfunction

if $COOL_ALE
  call ale#Queue(0, 'lint_file')
  call s:wait(1)
  call setline(2, '  s : String <- "ä𝒙"; t : Int;')
  call ale#Queue(0, '')
  call s:wait(0)
endif
silent make
call extend(s:said, map(getqflist(), {_, found -> 'make: ' . found.lnum . ' ' . found.text}))
call add(s:said, synIDattr(synID(1, 1, 1), 'name') . ' ' . synIDattr(synID(2, 18, 1), 'name'))
call writefile(s:said, $COOL_SAID)
qall!
