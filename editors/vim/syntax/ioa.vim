" Vim syntax file
" Language: sources of composed I/O automata (docs/LANGUAGE.md)

if exists("b:current_syntax")
  finish
endif

syn case match

syn match   ioaComment   "%.*$"
syn match   ioaNumber    "\<\d\+\>"
syn match   ioaOperator  ":=\|\.\.\|/=\|<=\|>=\|[-=<>+*]"

syn keyword ioaStructure type automaton signature states transitions tasks components hidden
syn keyword ioaKind      input output internal const
syn keyword ioaClause    pre eff
syn keyword ioaStatement if then elseif else fi for do od
syn keyword ioaOperator  and or not mod
syn keyword ioaFunction  empty fill head tail len append
syn keyword ioaBoolean   true false
syn keyword ioaType      Bool Int Seq Array enumeration of
syn keyword ioaReserved  idle

hi def link ioaComment   Comment
hi def link ioaNumber    Number
hi def link ioaOperator  Operator
hi def link ioaStructure Structure
hi def link ioaKind      StorageClass
hi def link ioaClause    Label
hi def link ioaStatement Conditional
hi def link ioaFunction  Function
hi def link ioaBoolean   Boolean
hi def link ioaType      Type
hi def link ioaReserved  Keyword

let b:current_syntax = "ioa"
