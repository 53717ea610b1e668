" Syntax of pcml's scripts: copy it into ~/.vim/syntax, and put `au BufRead,BufNewFile *.pcml setf pcml` into ~/.vimrc
if exists('b:current_syntax')
  finish
endif
syn case match
syn sync fromstart

syn keyword pcmlDeclare channel process
syn keyword pcmlStatement let print sync if else loop forever end spawn
syn keyword pcmlEvent send recv always never cancelled joined choose wrap as to guard nack

syn match pcmlNumber '\<\(0\|[1-9]\d*\)\>'
syn match pcmlMark '<-\|[=<+-]'
" What is no token: 04, 4x, _x, and a byte that begins none. There are no comments.
syn match pcmlBad '\<\(0\d\+\|\d\+\h\w*\|_\w*\)\>'
syn match pcmlBad '[^ \t;,{}()\[\]=<+a-zA-Z0-9_-]'
" What is declared.
syn match pcmlDeclared '\(\<\(channel\|process\)\_s\+\)\@<=\a\w*'

hi def link pcmlDeclare Type
hi def link pcmlStatement Statement
hi def link pcmlEvent Function
hi def link pcmlNumber Number
hi def link pcmlMark Operator
hi def link pcmlBad Error
hi def link pcmlDeclared Identifier
let b:current_syntax = 'pcml'
