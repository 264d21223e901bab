" Syntax of the pipeline language, by docs/LANGUAGE.md. Copy the folders `syntax` and `ftdetect` to ~/.vim.

if exists("b:current_syntax")
  finish
endif

syntax case match
syntax iskeyword a-z,A-Z,48-57,_

syntax keyword pipeConditional if else
syntax keyword pipeRepeat while pipe_while
syntax keyword pipeStage pipe_wait pipe_continue
syntax keyword pipePart init final
syntax keyword pipeLimit limits iterations stages steps emits
syntax keyword pipeOutput emit
syntax keyword pipeCall more take iter
syntax keyword pipeReserved version input output
syntax keyword pipeDeclare cell let nextgroup=pipeDeclared skipwhite skipempty

syntax match pipeDeclared "\<[A-Za-z_][A-Za-z_0-9]*\>" contained
syntax match pipeNumber "\<[0-9]\+"
syntax match pipeOperator "||\|&&\|[=!<>]=\|[-+*/%<>!=]"
syntax match pipeComment "//.*$" contains=pipeTodo
syntax keyword pipeTodo TODO FIXME contained

highlight default link pipeConditional Conditional
highlight default link pipeRepeat Repeat
highlight default link pipeStage Keyword
highlight default link pipePart Structure
highlight default link pipeLimit PreProc
highlight default link pipeOutput Statement
highlight default link pipeCall Function
highlight default link pipeReserved Error
highlight default link pipeDeclare Type
highlight default link pipeDeclared Identifier
highlight default link pipeNumber Number
highlight default link pipeOperator Operator
highlight default link pipeComment Comment
highlight default link pipeTodo Todo

let b:current_syntax = "pipe"
