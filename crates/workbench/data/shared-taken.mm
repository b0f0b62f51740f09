$( Taken by mmrefactor from shared.mm
   320 bytes, SHA-256 1bb8e4e213b412092b10967054399d063bc033f8e51bb675b0f075cc45cfc9b6
   Chosen: all assertions
   Changed names: 0
   Theorems taken as axioms, their proofs unchecked: 0
$)
$c wff |- $.
$v p q $.
wp $f wff p $.
wq $f wff q $.
ax $a |- p $.
${
  one.1 $e |- p $.
  one $p |- q $= wq ax $.
$}
${
  two.1 $e |- p $.
  two $p |- p $= two.1 $.
$}
${
  aside.1 $e |- p $.
  aside $p |- p $= wp aside.1 two $.
$}
three $p |- p $= wp wp ax two $.
four $p |- q $= wp wq wp ax one $.
