" Colours of bundle texts.
if exists('b:current_syntax')
  finish
endif
syntax match resbKey +[^"{},:\\/ \t]\+\ze\s*[{:]+
syntax match resbType +:\s*\(string\|alias\|bin\|binary\|int\|integer\|intvector\|array\|table\(([a-z]*)\)\?\)\ze\s*{+
syntax match resbNumber +\<\d\+\>+
syntax region resbString start=+"+ skip=+\\.+ end=+"+ contains=resbEscape,resbArgument
syntax match resbEscape +\\\(u\x\{4}\|U\x\{8}\|.\)+ contained
syntax match resbArgument +{\w\+\ze[,}]+ contained
syntax match resbComment +//.*+
syntax region resbComment start=+/\*+ end=+\*/+
highlight default link resbKey Identifier
highlight default link resbType Type
highlight default link resbNumber Number
highlight default link resbString String
highlight default link resbEscape SpecialChar
highlight default link resbArgument Special
highlight default link resbComment Comment
let b:current_syntax = 'resb'
setlocal commentstring=//\ %s
