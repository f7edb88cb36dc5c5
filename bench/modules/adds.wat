;; The sum of the numbers from 1 to 10,000,000, by a loop of adds.
(module
  (func (export "run") (result i64)
    (local $left i64) (local $sum i64)
    (local.set $left (i64.const 10000000))
    (loop $next
      (local.set $sum (i64.add (local.get $sum) (local.get $left)))
      (local.set $left (i64.add (local.get $left) (i64.const -1)))
      (br_if $next (i32.wrap_i64 (local.get $left))))
    (local.get $sum)))
