" Vim syntax file
" Language: I/O automata, as the program ioac compiles them
" A byte at which no token of the language begins is an error.

if exists("b:current_syntax")
  finish
endif
syntax case match

syntax match ioaName "\a\w*"
syntax match ioaNumber "\<\d\+"

syntax keyword ioaDeclaration type enum tuple seq of invariant automaton composition components hidden crash recover
syntax keyword ioaSection signature states transitions
syntax keyword ioaKind input output internal const stable
syntax keyword ioaClause pre propose eff
syntax keyword ioaConditional if then elseif else fi
syntax keyword ioaRepeat for in do od
syntax keyword ioaFunction any empty len head tail last init append at member without
syntax keyword ioaWordOperator div mod
syntax keyword ioaBoolean true false
syntax keyword ioaType Bool Int

syntax match ioaError "[^ \t\r0-9A-Za-z]"
syntax match ioaPunctuation "[;,.:(){}]"
syntax match ioaOperator "[=~<>+*-]"
syntax match ioaOperator ":=\|=>\|\~=\|<=\|>=\|/\\\|\\/"
syntax match ioaComment "%.*$"

highlight default link ioaDeclaration Structure
highlight default link ioaSection Structure
highlight default link ioaKind StorageClass
highlight default link ioaClause Statement
highlight default link ioaConditional Conditional
highlight default link ioaRepeat Repeat
highlight default link ioaFunction Function
highlight default link ioaWordOperator Operator
highlight default link ioaOperator Operator
highlight default link ioaPunctuation Delimiter
highlight default link ioaBoolean Boolean
highlight default link ioaType Type
highlight default link ioaNumber Number
highlight default link ioaError Error
highlight default link ioaComment Comment

let b:current_syntax = "ioa"
