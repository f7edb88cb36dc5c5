;; lost.wasm: each thread loads a counter, adds 1, and stores the sum, so that another
;; thread's sum can be lost in between. It is assembled by hand:
;;
;;   00 61 73 6d 01 00 00 00
;;   01 05 01 60 00 01 7f                      a type: no parameter, an i32
;;   03 02 01 00                               a function of it
;;   05 04 01 03 01 01                         a shared memory of one page
;;   07 07 01 03 61 64 64 00 00                its export, "add"
;;   0a 16 01 14 00                            its code
;;     41 00 41 00 28 02 00 41 01 6a 36 02 00 41 00 28 02 00 0b
(module
  (memory 1 1 shared)
  (func (export "add") (result i32)
    i32.const 0
    i32.const 0
    i32.load
    i32.const 1
    i32.add
    i32.store
    i32.const 0
    i32.load))
