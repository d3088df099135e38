" Estelle (ISO 9074), as Hawkopal reads it. Written by editors/update.
if exists("b:current_syntax")
  finish
endif
syntax case ignore
syntax keyword estelleStructure begin body channel const end export function initialize ip module modvar procedure specification state stateset trans type var
syntax keyword estelleKeyword activity all and any array attach by case common connect default delay detach disconnect div do downto else for from if in individual init mod name not of or otherwise output packed priority provided pure queue record release repeat same set systemactivity then timescale to until when while with
syntax keyword estelleLeftOut exist external file forone forward goto label nil primitive process real suchthat systemprocess terminate
syntax keyword estelleType boolean char integer
syntax keyword estelleConstant false maxint true
syntax keyword estelleFunction abs chr odd ord pred sqr succ
syntax match estelleNumber /\<\d\+\>/
syntax match estelleCharacter /'\(''\|[^']\)'/
syntax region estelleComment start=/{\|(\*/ end=/}\|\*)/ contains=estelleTodo
syntax keyword estelleTodo contained TODO FIXME
highlight default link estelleStructure Structure
highlight default link estelleKeyword Keyword
highlight default link estelleLeftOut Error
highlight default link estelleType Type
highlight default link estelleConstant Constant
highlight default link estelleFunction Function
highlight default link estelleNumber Number
highlight default link estelleCharacter Character
highlight default link estelleComment Comment
highlight default link estelleTodo Todo
let b:current_syntax = "estelle"
