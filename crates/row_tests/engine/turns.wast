;; A loop of many turns.
(module (memory (export "memory") 1))
(register "outside")

(module
  (import "outside" "memory" (memory 1))
  (func (export "turns") (param i32)
    loop
      local.get 0
      i32.const 1
      i32.sub
      local.tee 0
      br_if 0
    end))

(assert_return (invoke "turns" (i32.const 1)))
(assert_return (invoke "turns" (i32.const 1000000)))
