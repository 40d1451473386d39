" Colours for pieces of nyq. Copy the folders beside this one into ~/.vim.
if exists("b:current_syntax")
  finish
endif

syntax case ignore
syntax iskeyword @,48-57,_,-

syntax keyword nyqWord define function variable begin with end return play
syntax match nyqWord "#if\>"
syntax keyword nyqSound const osc hzosc lfo noise s-rest ramp pwl
syntax keyword nyqShape s-abs s-max s-min scale cue onepole biquad comb
syntax keyword nyqParts sim seq simrep seqrep vector
syntax keyword nyqChange at stretch loud sustain transpose warp map sound-srate-abs control-srate-abs
syntax match nyqNumber "\<\d\+\(\.\d\{1,6}\)\?\>\|\.\d\{1,6}\>"
syntax match nyqSign "[-+*/@~=<>&|!]"
syntax match nyqComment ";.*$" contains=nyqTodo
syntax keyword nyqTodo TODO contained

highlight default link nyqWord Statement
highlight default link nyqSound Function
highlight default link nyqShape Function
highlight default link nyqParts Structure
highlight default link nyqChange Type
highlight default link nyqNumber Number
highlight default link nyqSign Operator
highlight default link nyqComment Comment
highlight default link nyqTodo Todo

let b:current_syntax = "nyq"
