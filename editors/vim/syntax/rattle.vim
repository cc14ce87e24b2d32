" Vim syntax for Rattle, .rt: Rust with contracts.
if exists('b:current_syntax')
  finish
endif
runtime! syntax/rust.vim
unlet! b:current_syntax

" Clauses, in which words of definitions stand, and what is there for the proof alone. What stands in braces is a term.
syntax keyword rattleClause ensures requires ghost invariant
syntax keyword rattleTerm record elim absurd contained
syntax match rattleTactic '#!\?\[tactic([^]]*)\]'
syntax match rattleSymbol '[≡≢≤≥→×∧∨¬λ∷∃∀ℕℤ]'

highlight default link rattleClause PreProc
highlight default link rattleTerm Statement
highlight default link rattleTactic PreProc
highlight default link rattleSymbol Operator

let b:current_syntax = 'rattle'
