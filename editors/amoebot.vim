" Vim syntax of documents and programs of amoebots.
" Copy this file to ~/.vim/syntax/ and add to ~/.vimrc:
"   autocmd BufNewFile,BufRead *.amoebot setfiletype amoebot
" This line folds each section:
"   autocmd FileType amoebot setlocal foldmethod=syntax

if exists('b:current_syntax')
  finish
endif

syntax case match
syntax sync fromstart

" Each section is a region, from its word to its `end`. A word has the colour that it has in that section: `turn` of a program is another word than
" `turn` of the marks, and a variable may be named `shape`.
syntax region amoebotProgram matchgroup=amoebotSection start='\<program\>' end='\<end\>' fold contains=@amoebotPlain,amoebotDeclaration,amoebotStatement,amoebotOperator,amoebotFunction,amoebotConstant,amoebotMove
syntax region amoebotShape matchgroup=amoebotSection start='\<\%(shape\|final\)\>' end='\<end\>' fold contains=@amoebotPlain,amoebotPlace
syntax region amoebotLists matchgroup=amoebotSection start='\<lists\>' end='\<end\>' fold contains=@amoebotPlain,amoebotList
syntax region amoebotSchedule matchgroup=amoebotSection start='\<schedule\>' end='\<end\>' fold contains=@amoebotPlain,amoebotTimes
syntax region amoebotJournal matchgroup=amoebotSection start='\<journal\>' end='\<end\>' fold contains=@amoebotPlain,amoebotEntry,amoebotCell,amoebotEnd,amoebotMove
syntax region amoebotTurns matchgroup=amoebotSection start='\<turns\>' end='\<end\>' fold contains=@amoebotPlain,amoebotTurn,amoebotCell,amoebotMark,amoebotFailure

" The word before all sections.
syntax keyword amoebotSection amoebot

" Words of a program.
syntax keyword amoebotDeclaration contained guard var action
syntax keyword amoebotStatement contained when do move if then else fi for od let in
syntax keyword amoebotOperator contained not and or any all count first
syntax keyword amoebotFunction contained dir peer_dir peer_head peer_expanded at_head linked inner mod6 turn
syntax keyword amoebotConstant contained true false contracted expanded on off ports free head tail
syntax keyword amoebotMove contained none expand contract push pull

" Words of a shape, of lists and of a schedule.
syntax keyword amoebotPlace contained area wall bot
syntax keyword amoebotList contained turns list
syntax keyword amoebotTimes contained times

" Words of a journal and of marks.
syntax keyword amoebotEntry contained entry
syntax keyword amoebotEnd contained head tail
syntax keyword amoebotCell contained spot body empty to
syntax keyword amoebotTurn contained turn
syntax keyword amoebotMark contained done idle failed busy by place
syntax keyword amoebotFailure contained no_port no_neighbour out_of_range occupied not_contracted not_expanded
syntax keyword amoebotFailure contained peer_not_expanded peer_not_contracted edge would_split no_choice blocked

syntax match amoebotNumber '\<\d\+'
syntax match amoebotSign ':=\|!=\|<=\|>=\|[=<>+.;-]'
syntax match amoebotComment '#.*$' contains=@Spell
syntax cluster amoebotPlain contains=amoebotNumber,amoebotSign,amoebotComment

highlight default link amoebotSection Keyword
highlight default link amoebotDeclaration Keyword
highlight default link amoebotStatement Statement
highlight default link amoebotOperator Operator
highlight default link amoebotFunction Function
highlight default link amoebotConstant Constant
highlight default link amoebotMove Special
highlight default link amoebotPlace Type
highlight default link amoebotList Type
highlight default link amoebotTimes Type
highlight default link amoebotEntry Type
highlight default link amoebotEnd Constant
highlight default link amoebotCell Identifier
highlight default link amoebotTurn Type
highlight default link amoebotMark Statement
highlight default link amoebotFailure Exception
highlight default link amoebotNumber Number
highlight default link amoebotSign Operator
highlight default link amoebotComment Comment

let b:current_syntax = 'amoebot'
