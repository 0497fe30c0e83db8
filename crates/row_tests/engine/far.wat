;; Offsets past 32 bits, which wabt 1.0.32 does not read: the bytes are put together by hand. Those of a memory of 32-bit
;; addresses are the same but for the type of the memory and of the addresses.
(module
  (import "outside" "memory" (memory i64 1))
  (func (export "load far by 100000000") (param i64) (result i32)
    local.get 0 i32.load8_u offset=0x100000000)
  (func (export "store far by 100000000") (param i64)
    local.get 0 i32.const 7 i32.store8 offset=0x100000000)
  (func (export "load far by ffffffffffffffff") (param i64) (result i32)
    local.get 0 i32.load8_u offset=0xffffffffffffffff)
  (func (export "store far by ffffffffffffffff") (param i64)
    local.get 0 i32.const 7 i32.store8 offset=0xffffffffffffffff))
