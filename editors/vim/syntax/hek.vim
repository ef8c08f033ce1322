" Schedule texts of Hek.
if exists('b:current_syntax')
  finish
endif

syntax case match
" What no rule below takes can't stand there.
syntax match hekWrong /[^ \t\r#].*/
syntax match hekDeclaration /^\s*\zs\%(buckets\|row\|txn\)\>.*/ contains=hekDeclared,hekLevel,hekNumber,hekComment
syntax match hekStep /^\s*\zs[a-z][a-z0-9_]*\s\+\%(begin\|finish\|precommit\|release\|commit\|fail\|stamp\|end\)\ze\s*\%(#.*\)\=$/ contains=hekPhase
syntax match hekStep /^\s*\zs[a-z][a-z0-9_]*\s\+\%(read\|scan\|delete\)\s\+\d\{1,20}\ze\s*\%(#.*\)\=$/ contains=hekAccess,hekNumber
syntax match hekStep /^\s*\zs[a-z][a-z0-9_]*\s\+\%(insert\|update\)\s\+\d\{1,20}\s\+\d\{1,20}\ze\s*\%(#.*\)\=$/ contains=hekAccess,hekNumber
syntax match hekStep /^\s*\zs[a-z][a-z0-9_]*\s\+\%(insert\|update\)\s\+\d\{1,20}\s\+[@0-9][-+*@0-9 \t]*\%(@\|[-+*@]\s*\)\@<!\%(\s\+if\s\+[@0-9][-+*@0-9 \t=!<>and]*\)\=\ze\s*\%(#.*\)\=$/ contains=hekAccess,hekNumber,hekCondition
syntax match hekStep /^\s*\zs[a-z][a-z0-9_]*\s\+\%(\%(read\|scan\|delete\)\s\+\d\{1,20}\|fail\)\s\+if\s\+[@0-9][-+*@0-9 \t=!<>and]*\ze\s*\%(#.*\)\=$/ contains=hekAccess,hekPhase,hekNumber,hekCondition
syntax match hekAlways /^\s*\zsalways\s\+[@a-z0-9][-+*@a-z0-9_ \t]*[=!<>][-+*@a-z0-9_ \t=!<>]*\ze\s*\%(#.*\)\=$/ contains=hekNumber,hekCondition
syntax match hekDetect /^\s*\zsdetect\ze\s*\%(#.*\)\=$/
syntax keyword hekDeclared contained buckets row txn
syntax keyword hekLevel contained serializable repeatable snapshot
syntax keyword hekPhase contained begin finish precommit release commit fail stamp end
syntax keyword hekAccess contained read scan insert update delete
syntax keyword hekCondition contained if and always
syntax match hekNumber contained /\<\d\{1,20}\>/
syntax match hekComment /#.*$/

highlight default link hekDeclared Statement
highlight default link hekLevel Type
highlight default link hekStep Identifier
highlight default link hekPhase Keyword
highlight default link hekAccess Function
highlight default link hekDetect Keyword
highlight default link hekAlways Identifier
highlight default link hekCondition Conditional
highlight default link hekNumber Number
highlight default link hekComment Comment
highlight default link hekWrong Error

let b:current_syntax = 'hek'
