" Vim syntax file: S/SL programs (*.ssl)
if exists("b:current_syntax")
  finish
endif
syn keyword sslSection input output error type mechanism rules end
syn match sslSection "\<operators\ze\s\+\a\w*\s*:"
syn keyword sslFlow do od if fi
syn match sslRule "^\s*\a\w*\ze\s*\(>>\s*\a\w*\s*\)\?:"
syn match sslCall "@\s*\a\w*"
syn match sslOperators "\^\s*\a\w*"
syn match sslOutput "\.\s*\a\w*"
syn match sslError "#\s*\a\w*"
syn match sslNumber "\<\d\+\>"
syn match sslFlow ">>\|[>{}|!*?]\|\[\|\]"
syn match sslString "'[^']*'"
syn match sslComment "%.*$"
hi def link sslSection Statement
hi def link sslFlow Operator
hi def link sslRule Function
hi def link sslCall Function
hi def link sslOperators Function
hi def link sslOutput Identifier
hi def link sslError Exception
hi def link sslNumber Number
hi def link sslString String
hi def link sslComment Comment
let b:current_syntax = "ssl"
