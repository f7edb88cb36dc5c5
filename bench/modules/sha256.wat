;; The first word of the SHA-256 digest (FIPS 180-4) of 1,048,576 bytes, of which byte n is n modulo 251.
(module
  ;; The message and its padding, the constants of the rounds from 1,048,640 on, and the schedule of words from
  ;; 1,048,896 on.
  (memory 17 17)
  (data (i32.const 1048640)
    "\98\2f\8a\42\91\44\37\71\cf\fb\c0\b5\a5\db\b5\e9"
    "\5b\c2\56\39\f1\11\f1\59\a4\82\3f\92\d5\5e\1c\ab"
    "\98\aa\07\d8\01\5b\83\12\be\85\31\24\c3\7d\0c\55"
    "\74\5d\be\72\fe\b1\de\80\a7\06\dc\9b\74\f1\9b\c1"
    "\c1\69\9b\e4\86\47\be\ef\c6\9d\c1\0f\cc\a1\0c\24"
    "\6f\2c\e9\2d\aa\84\74\4a\dc\a9\b0\5c\da\88\f9\76"
    "\52\51\3e\98\6d\c6\31\a8\c8\27\03\b0\c7\7f\59\bf"
    "\f3\0b\e0\c6\47\91\a7\d5\51\63\ca\06\67\29\29\14"
    "\85\0a\b7\27\38\21\1b\2e\fc\6d\2c\4d\13\0d\38\53"
    "\54\73\0a\65\bb\0a\6a\76\2e\c9\c2\81\85\2c\72\92"
    "\a1\e8\bf\a2\4b\66\1a\a8\70\8b\4b\c2\a3\51\6c\c7"
    "\19\e8\92\d1\24\06\99\d6\85\35\0e\f4\70\a0\6a\10"
    "\16\c1\a4\19\08\6c\37\1e\4c\77\48\27\b5\bc\b0\34"
    "\b3\0c\1c\39\4a\aa\d8\4e\4f\ca\9c\5b\f3\6f\2e\68"
    "\ee\82\8f\74\6f\63\a5\78\14\78\c8\84\08\02\c7\8c"
    "\fa\ff\be\90\eb\6c\50\a4\f7\a3\f9\be\f2\78\71\c6")
  (global $h0 (mut i32) (i32.const 0x6a09e667))
  (global $h1 (mut i32) (i32.const 0xbb67ae85))
  (global $h2 (mut i32) (i32.const 0x3c6ef372))
  (global $h3 (mut i32) (i32.const 0xa54ff53a))
  (global $h4 (mut i32) (i32.const 0x510e527f))
  (global $h5 (mut i32) (i32.const 0x9b05688c))
  (global $h6 (mut i32) (i32.const 0x1f83d9ab))
  (global $h7 (mut i32) (i32.const 0x5be0cd19))

  ;; The bytes of a word in the other order.
  (func $swapped (param $x i32) (result i32)
    (i32.or
      (i32.and (i32.rotl (local.get $x) (i32.const 8)) (i32.const 0x00ff00ff))
      (i32.and (i32.rotr (local.get $x) (i32.const 8)) (i32.const 0xff00ff00))))

  ;; The schedule of words of the block at an address. Offsets in $t are four times a word's number.
  (func $schedule (param $at i32)
    (local $t i32) (local $x i32) (local $y i32)
    (loop $copied
      (i32.store offset=1048896 (local.get $t) (call $swapped (i32.load (i32.add (local.get $at) (local.get $t)))))
      (local.set $t (i32.add (local.get $t) (i32.const 4)))
      (br_if $copied (i32.lt_u (local.get $t) (i32.const 64))))
    (loop $made
      (local.set $x (i32.load offset=1048836 (local.get $t)))
      (local.set $y (i32.load offset=1048888 (local.get $t)))
      (i32.store offset=1048896 (local.get $t)
        (i32.add
          (i32.add
            (i32.load offset=1048832 (local.get $t))
            (i32.xor
              (i32.xor (i32.rotr (local.get $x) (i32.const 7)) (i32.rotr (local.get $x) (i32.const 18)))
              (i32.shr_u (local.get $x) (i32.const 3))))
          (i32.add
            (i32.load offset=1048868 (local.get $t))
            (i32.xor
              (i32.xor (i32.rotr (local.get $y) (i32.const 17)) (i32.rotr (local.get $y) (i32.const 19)))
              (i32.shr_u (local.get $y) (i32.const 10))))))
      (local.set $t (i32.add (local.get $t) (i32.const 4)))
      (br_if $made (i32.lt_u (local.get $t) (i32.const 256)))))

  ;; The rounds of the block at an address.
  (func $block (param $at i32)
    (local $t i32) (local $x i32) (local $y i32)
    (local $a i32) (local $b i32) (local $c i32) (local $d i32)
    (local $e i32) (local $f i32) (local $g i32) (local $h i32)
    (call $schedule (local.get $at))
    (local.set $a (global.get $h0))
    (local.set $b (global.get $h1))
    (local.set $c (global.get $h2))
    (local.set $d (global.get $h3))
    (local.set $e (global.get $h4))
    (local.set $f (global.get $h5))
    (local.set $g (global.get $h6))
    (local.set $h (global.get $h7))
    (loop $rounds
      (local.set $x
        (i32.add
          (i32.add
            (i32.add
              (local.get $h)
              (i32.xor
                (i32.xor (i32.rotr (local.get $e) (i32.const 6)) (i32.rotr (local.get $e) (i32.const 11)))
                (i32.rotr (local.get $e) (i32.const 25))))
            (i32.xor
              (i32.and (local.get $e) (local.get $f))
              (i32.and (i32.xor (local.get $e) (i32.const -1)) (local.get $g))))
          (i32.add
            (i32.load offset=1048640 (local.get $t))
            (i32.load offset=1048896 (local.get $t)))))
      (local.set $y
        (i32.add
          (i32.xor
            (i32.xor (i32.rotr (local.get $a) (i32.const 2)) (i32.rotr (local.get $a) (i32.const 13)))
            (i32.rotr (local.get $a) (i32.const 22)))
          (i32.xor
            (i32.xor
              (i32.and (local.get $a) (local.get $b))
              (i32.and (local.get $a) (local.get $c)))
            (i32.and (local.get $b) (local.get $c)))))
      (local.set $h (local.get $g))
      (local.set $g (local.get $f))
      (local.set $f (local.get $e))
      (local.set $e (i32.add (local.get $d) (local.get $x)))
      (local.set $d (local.get $c))
      (local.set $c (local.get $b))
      (local.set $b (local.get $a))
      (local.set $a (i32.add (local.get $x) (local.get $y)))
      (local.set $t (i32.add (local.get $t) (i32.const 4)))
      (br_if $rounds (i32.lt_u (local.get $t) (i32.const 256))))
    (global.set $h0 (i32.add (global.get $h0) (local.get $a)))
    (global.set $h1 (i32.add (global.get $h1) (local.get $b)))
    (global.set $h2 (i32.add (global.get $h2) (local.get $c)))
    (global.set $h3 (i32.add (global.get $h3) (local.get $d)))
    (global.set $h4 (i32.add (global.get $h4) (local.get $e)))
    (global.set $h5 (i32.add (global.get $h5) (local.get $f)))
    (global.set $h6 (i32.add (global.get $h6) (local.get $g)))
    (global.set $h7 (i32.add (global.get $h7) (local.get $h))))

  (func (export "run") (result i32)
    (local $at i32)
    (loop $bytes
      (i32.store8 (local.get $at) (i32.rem_u (local.get $at) (i32.const 251)))
      (local.set $at (i32.add (local.get $at) (i32.const 1)))
      (br_if $bytes (i32.lt_u (local.get $at) (i32.const 1048576))))
    ;; a one behind the message, and its length in bits
    (i32.store8 (i32.const 1048576) (i32.const 0x80))
    (i32.store8 (i32.const 1048637) (i32.const 0x80))
    (local.set $at (i32.const 0))
    (loop $blocks
      (call $block (local.get $at))
      (local.set $at (i32.add (local.get $at) (i32.const 64)))
      (br_if $blocks (i32.lt_u (local.get $at) (i32.const 1048640))))
    (global.get $h0)))
