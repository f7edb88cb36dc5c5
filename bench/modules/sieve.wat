;; How many primes there are below 1,048,576, by the sieve of Eratosthenes over a byte for each number.
(module
  (memory 16 16)
  (func (export "run") (result i32)
    (local $number i32) (local $multiple i32) (local $primes i32)
    (local.set $number (i32.const 2))
    (loop $numbers
      (if (i32.eqz (i32.load8_u (local.get $number)))
        (then
          (local.set $primes (i32.add (local.get $primes) (i32.const 1)))
          (local.set $multiple (i32.shl (local.get $number) (i32.const 1)))
          (block $done
            (loop $multiples
              (br_if $done (i32.ge_u (local.get $multiple) (i32.const 1048576)))
              (i32.store8 (local.get $multiple) (i32.const 1))
              (local.set $multiple (i32.add (local.get $multiple) (local.get $number)))
              (br $multiples)))))
      (local.set $number (i32.add (local.get $number) (i32.const 1)))
      (br_if $numbers (i32.lt_u (local.get $number) (i32.const 1048576))))
    (local.get $primes)))
