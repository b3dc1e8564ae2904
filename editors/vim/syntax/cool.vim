" Vim syntax file: Cool, by the lexemes of docs/language.md
if exists('b:current_syntax')
  finish
endif

syntax case ignore
syntax keyword coolKeyword class else fi if in inherits isvoid let loop pool then while case esac new of not
syntax case match
" They begin with a small letter, whatever the case of the others.
syntax match coolBoolean /\<t[rR][uU][eE]\>\|\<f[aA][lL][sS][eE]\>/
syntax match coolType /\<\u[A-Za-z0-9_]*\>/
syntax keyword coolSelf self
syntax keyword coolType SELF_TYPE
syntax match coolNumber /\<\d\+/
syntax match coolOperator /<-\|<=\|=>\|[-+*\/~<=@.]/
syntax match coolUnopened /\*)/
syntax region coolString start=/"/ skip=/\\./ end=/"/ end=/\\\@1<!$/ contains=coolEscape
syntax match coolEscape /\\./ contained
syntax match coolEscape /\\$/ contained
syntax match coolLine /--.*/ contains=coolTodo
syntax region coolComment matchgroup=coolComment start=/(\*/ end=/\*)/ contains=coolComment,coolTodo
syntax keyword coolTodo TODO FIXME XXX contained
syntax sync fromstart

highlight default link coolKeyword Keyword
highlight default link coolBoolean Boolean
highlight default link coolType Type
highlight default link coolSelf Special
highlight default link coolNumber Number
highlight default link coolOperator Operator
highlight default link coolUnopened Error
highlight default link coolString String
highlight default link coolEscape SpecialChar
highlight default link coolComment Comment
highlight default link coolLine Comment
highlight default link coolTodo Todo

let b:current_syntax = 'cool'
