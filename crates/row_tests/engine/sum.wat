;; A loop over a memory, and an arithmetic function.
(module
  (type (func (param i32) (result i32)))
  (type (func (param i32 i64) (result i64)))
  (import "env" "log" (func (type 0)))
  (import "env" "memory" (memory 1))
  (import "env" "counter" (global (mut i32)))
  (import "env" "limit" (global i64))
  (func (type 0) (local i32 i32 i64)
    block
      loop
        local.get 1
        local.get 0
        i32.ge_u
        br_if 1
        local.get 1
        i32.load8_u offset=200
        local.get 2
        i32.add
        local.set 2
        local.get 1
        i32.const 1
        i32.add
        local.tee 1
        i32.const -65
        i32.ne
        br_if 0
      end
    end
    local.get 2
    i32.const 24
    i32.shl
    i32.const 24
    i32.shr_u
    i32.extend8_s
    call 0
    global.get 0
    i32.sub)
  (func (type 1) (local f64)
    local.get 0
    global.set 0
    local.get 0
    i64.extend_i32_u
    local.get 1
    i64.mul
    global.get 1
    i64.lt_u
    if (result i64)
      i64.const 0x8000000000000000
    else
      i64.const 64
      local.get 1
      i64.xor
    end
    i32.const 0
    call 1
    i32.eqz
    i64.extend_i32_u
    i64.or)
  (export "sum" (func 1))
  (export "log again" (func 0)))
