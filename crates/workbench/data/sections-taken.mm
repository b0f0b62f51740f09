$( Taken by mmrefactor from sections.mm
   243 bytes, SHA-256 ae92a696c957f9494a54c18148be03e249735e9bf4c1b15e6d0f896d345d7b9f
   Chosen: all assertions
   Changed names: 0
   Theorems taken as axioms, their proofs unchecked: 0
$)
$c wff |- S $.
$v p q $.
wp $f wff p $.
wq $f wff q $.
ax $a |- p $.
one $p |- p $= wp ax $.
ws $a wff S $.
two $p |- S $= ws ax $.
three $p |- p $= wp ax $.
four $p |- q $= wq ax $.
