$( Taken by mmrefactor from blocks.mm
   425 bytes, SHA-256 f2092d322ec107e8cbacbc152c2b8d928c44cc234a9072a5d7aab5540a875e3e
   Chosen: all assertions
   Changed names: 0
   Theorems taken as axioms, their proofs unchecked: 0
$)
$c wff |- $.
$v p q $.
wp $f wff p $.
wq $f wff q $.
ax $a |- p $.
${
  one.1 $e |- p $.
  one $p |- q $= wq ax $.
$}
${
  two.1 $e |- p $.
  two.2 $e |- q $.
  two $p |- p $= two.1 $.
$}
three $p |- p $= wp ax $.
${
  four.1 $e |- q $.
  four $p |- q $= four.1 $.
$}
