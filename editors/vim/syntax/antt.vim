" Vim syntax for the definitions and proofs of Rattle, .antt.
if exists('b:current_syntax')
  finish
endif

" Names may have a dash or a prime inside.
setlocal iskeyword=@,48-57,_,',-

syntax keyword anttDeclare pub abbrev unfoldable record data mod ghost where
syntax keyword anttImport use open as
syntax keyword anttWord let in elim if then else with
syntax keyword anttTactic refl sym ap subst rw cc arith omega grind absurd by auto
syntax keyword anttKnown true false tt not Some None Type Bool List Option Unit
syntax match anttSymbol '[≡≢≤≥→×⊎∧∨¬λ∷∙↦←⊥∃∀ℕℤ]\|\<_\>\|◌'
syntax match anttNumber '\<\d\+\>'
syntax match anttHole '?'
" The name at the start of a line is what is declared or proved there.
syntax match anttName '\%(^\|^pub \|^abbrev pub \)\@<=[A-Za-z_][A-Za-z0-9_''-]*\ze :'
syntax match anttComment '--\%(\s.*\)\?$' contains=@Spell
syntax region anttString start=+"+ skip=+\\"+ end=+"+

highlight default link anttDeclare Keyword
highlight default link anttImport Include
highlight default link anttWord Statement
highlight default link anttTactic Function
highlight default link anttKnown Constant
highlight default link anttSymbol Operator
highlight default link anttNumber Number
highlight default link anttHole Todo
highlight default link anttName Identifier
highlight default link anttComment Comment
highlight default link anttString String

let b:current_syntax = 'antt'
