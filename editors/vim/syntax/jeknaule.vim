" Vim syntax file
" Language: models of Jeknaule. docs/language.md has their grammar, and `bench/editors.py` tries this file.
"
" Each member is a region up to its `;`, or up to the next word that can't stand in it, so that an unfinished line spoils no other one.
" A name is coloured by what it names. Errors are bytes that begin no token, and names of more than 63 bytes.

if exists('b:current_syntax')
  finish
endif

syntax case match
syntax iskeyword 48-57,65-90,97-122,_,-
syntax sync minlines=100

" Of two items that match at one place the later one wins.
syntax match jeknauleError "[^[:blank:]\r]"
syntax match jeknaulePlain "\a[[:alnum:]_-]*"
syntax match jeknauleClass contained "\a[[:alnum:]_-]*"
syntax match jeknauleEvent contained "\a[[:alnum:]_-]*"
syntax match jeknauleRelation contained "\a[[:alnum:]_-]*"
syntax match jeknauleRule contained "\a[[:alnum:]_-]*"
" A place of a path: blanks and comments may stand before its `+` or `.`.
syntax match jeknaulePlace contained "\a[[:alnum:]_-]*\ze\%(\_s\|#.*\n\)*[+.]"
syntax match jeknauleError "\a[[:alnum:]_-]\{63,}"
syntax match jeknauleSign "[{};:.]"
syntax match jeknauleOperator "=>\|+"
syntax match jeknauleComment "#.*" contains=@Spell
syntax keyword jeknauleWord extends one many inverse
syntax cluster jeknauleAny contains=jeknauleError,jeknauleSign,jeknauleOperator,jeknauleComment,jeknauleWord

function! s:Region(name, start, contains, ...) abort
  let l:words = 'class\|problem\|symptom\|event\|relation\|rule\|block\|hide' . join(a:000, '')
  let l:end = ' end="\ze\%([;{}]\|\<\%(' . l:words . '\)\>\)"'
  execute 'syntax region' a:name 'matchgroup=' . a:start . l:end 'contains=@jeknauleAny,' . a:contains
endfunction

call s:Region('jeknauleHead', 'jeknauleKind start="\<class\>"', 'jeknauleClass')
call s:Region('jeknauleEvents', 'jeknauleKind start="\<\%(problem\|symptom\|event\|hide\)\>"', 'jeknauleEvent')
call s:Region('jeknauleBlock', 'jeknauleKind start="\<block\>"', 'jeknauleRule')
call s:Region('jeknauleLink', 'jeknauleKind start="\<relation\>"', 'jeknauleRelation,jeknauleTarget')
call s:Region('jeknauleTarget', 'jeknauleWord start="\<to\>"', 'jeknauleClass contained', '\|one\|many\|inverse')
call s:Region('jeknauleRuleName', 'jeknauleKind start="\<rule\>" end="\ze:"', 'jeknauleRule')
call s:Region('jeknauleRuleBody', 'jeknauleSign start=":"', 'jeknauleEvent,jeknaulePlace')

delfunction s:Region

highlight default link jeknauleComment Comment
highlight default link jeknauleKind Statement
highlight default link jeknauleWord Keyword
highlight default link jeknauleClass Type
highlight default link jeknauleEvent Identifier
highlight default link jeknauleRelation PreProc
highlight default link jeknaulePlace jeknauleRelation
highlight default link jeknauleRule Function
highlight default link jeknauleSign Delimiter
highlight default link jeknauleOperator Operator
highlight default link jeknauleError Error

let b:current_syntax = 'jeknaule'
