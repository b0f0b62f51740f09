$( Taken by mmrefactor from notes.mm
   389 bytes, SHA-256 a7024ce6ee53b1ef5de6b0a194467f432fae5dbaf649ad4938a47f43a45c2567
   Chosen: all assertions
   Changed names: 0
   Theorems taken as axioms, their proofs unchecked: 0
$)
$c wff |- $.
$v p q $.
wp $f wff p $.
wq $f wff q $.
ax $a |- p $.
${
  one.1 $e |- p $.
  one $p |- q $= wq ax $.
$}
${
  two.1 $e |- p $.
  two.2 $e |- q $.
  two $p |- p $= two.1 $.
$}
three $p |- p $= wp ax $.
