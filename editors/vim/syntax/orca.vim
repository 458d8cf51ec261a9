" Syntax of Orca. Made by editors/make of editors/tokens.json: change that, and make it again.
if exists('b:current_syntax')
  finish
endif
syntax case match
syntax iskeyword 48-57,65-90,97-122,_
syntax keyword orcaDeclaration nextgroup=@orcaWord,orcaModuleNameHere skipwhite module import
syntax keyword orcaDeclaration nextgroup=@orcaWord,orcaConstantNameHere skipwhite const
syntax keyword orcaDeclaration nextgroup=@orcaWord,orcaTypeNameHere skipwhite type specification implementation
syntax keyword orcaDeclaration object record enum
syntax keyword orcaDeclaration nextgroup=@orcaWord,orcaFunctionNameHere skipwhite operation function process
syntax keyword orcaControl begin end if then elsif else fi while do od for repeat until return guard fork on
syntax keyword orcaWordOperator and or not in
syntax keyword orcaTypeWord integer boolean char string array set bag
syntax keyword orcaTypeWord nextgroup=@orcaWord,orcaTypeNameHere skipwhite of
syntax keyword orcaModifier nextgroup=@orcaWord,orcaTypeNameHere skipwhite shared out
syntax keyword orcaTruth true false
syntax keyword orcaBuiltIn from size ord insert delete WriteLine
syntax keyword orcaReserved Output
syntax keyword orcaPredeclaredType graph nodename
syntax keyword orcaPredeclaredConstant nil
syntax keyword orcaPredeclaredFunction addnode deletenode
syntax cluster orcaWord contains=orcaDeclaration,orcaControl,orcaWordOperator,orcaTypeWord,orcaModifier,orcaTruth,orcaBuiltIn,orcaReserved,orcaPredeclaredType,orcaPredeclaredConstant,orcaPredeclaredFunction
syntax match orcaWrong "[^ \t\r]"
syntax match orcaName "[A-Za-z][A-Za-z0-9_]*"
syntax match orcaFunctionName "[A-Za-z][A-Za-z0-9_]*\ze[ \t]*("
syntax match orcaFunctionNameHere "[A-Za-z][A-Za-z0-9_]*" contained
syntax match orcaTypeNameHere "[A-Za-z][A-Za-z0-9_]*" contained
syntax match orcaModuleNameHere "[A-Za-z][A-Za-z0-9_]*" contained
syntax match orcaConstantNameHere "[A-Za-z][A-Za-z0-9_]*" contained
syntax match orcaNumber "[0-9]\+"
syntax match orcaBracket "\V(\|)\|[\|]"
syntax match orcaSemicolon "\V;"
syntax match orcaComma "\V,"
syntax match orcaColon "\V:" nextgroup=@orcaWord,orcaTypeNameHere skipwhite
syntax match orcaPeriod "\V."
syntax match orcaInvocation "\V$"
syntax match orcaConcatenation "\V&"
syntax match orcaArithmetic "\V%\|*\|+\|-\|/"
syntax match orcaRange "\V.."
syntax match orcaComparison "\V/=\|<=\|>=\|<\|=\|>"
syntax match orcaAssignment "\V:="
syntax match orcaWrongInside "\\.\|[^ -~]" contained
syntax match orcaEscape +\\[nt\\'"]+ contained
syntax match orcaWrong "'\%([^'\\]\|\\.\)*'"
syntax match orcaCharLiteral +'\%(\%(['\\]\)\@![ -~]\|\\[nt\\'"]\)'+ contains=orcaEscape
syntax match orcaStringLiteral +"\%([^"\\]\|\\.\)*"+ contains=orcaEscape,orcaWrongInside,@Spell
syntax match orcaWrong "'\%([^'\\]\|\\.\)*\\\?$"
syntax match orcaWrong +"\%([^"\\]\|\\.\)*\\\?$+
syntax match orcaComment "#.*" contains=@Spell
highlight default link orcaDeclaration Keyword
highlight default link orcaControl Statement
highlight default link orcaWordOperator Keyword
highlight default link orcaTypeWord Type
highlight default link orcaModifier StorageClass
highlight default link orcaTruth Boolean
highlight default link orcaBuiltIn Function
highlight default link orcaReserved Error
highlight default link orcaPredeclaredType Type
highlight default link orcaPredeclaredConstant Constant
highlight default link orcaPredeclaredFunction Function
highlight default link orcaAssignment Operator
highlight default link orcaComparison Operator
highlight default link orcaArithmetic Operator
highlight default link orcaConcatenation Operator
highlight default link orcaInvocation Operator
highlight default link orcaRange Operator
highlight default link orcaPeriod Delimiter
highlight default link orcaColon Delimiter
highlight default link orcaComma Delimiter
highlight default link orcaSemicolon Delimiter
highlight default link orcaBracket Delimiter
highlight default link orcaComment Comment
highlight default link orcaNumber Number
highlight default link orcaCharLiteral Character
highlight default link orcaStringLiteral String
highlight default link orcaEscape SpecialChar
highlight default link orcaFunctionName Function
highlight default link orcaTypeName Type
highlight default link orcaModuleName Include
highlight default link orcaConstantName Constant
highlight default link orcaWrong Error
highlight default link orcaWrongInside orcaWrong
highlight default link orcaFunctionNameHere orcaFunctionName
highlight default link orcaTypeNameHere orcaTypeName
highlight default link orcaModuleNameHere orcaModuleName
highlight default link orcaConstantNameHere orcaConstantName
let b:current_syntax = 'orca'
