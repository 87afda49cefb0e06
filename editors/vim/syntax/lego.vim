" Syntax of lego's scripts.
if exists('b:current_syntax')
  finish
endif

syntax iskeyword a-z,A-Z,48-57,_,'
syntax keyword legoCommand Undo Forget Ctxt Hnf Normal Explicit Implicit Discharge Module Import
syntax keyword legoCommand Goal Intros Refine Claim Next Assumption Equiv Save KillRef Prf
syntax keyword legoSort Prop Type
syntax match legoNumber /\<\d\+\>/
syntax match legoOperator /->\|[#|=?]/
syntax match legoProjection /\.\s*0*[12]\>/
syntax region legoComment start=/(\*/ end=/\*)/ contains=legoComment,@Spell

highlight default link legoCommand Statement
highlight default link legoSort Type
highlight default link legoNumber Number
highlight default link legoOperator Operator
highlight default link legoProjection Operator
highlight default link legoComment Comment

let b:current_syntax = 'lego'
