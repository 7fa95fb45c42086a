cs_5_0
dcl_uav_raw u0
dcl_input vThreadID.x
dcl_temps 1
dcl_thread_group 1, 1, 1
mov r0.xy, l(0, 0, 0, 0)
loop
  uge r0.z, r0.x, l(6)
  breakc_nz r0.z
  iadd r0.x, r0.x, l(1)
  switch r0.x
    case l(1)
      iadd r0.y, r0.y, l(1)
    default
      iadd r0.y, r0.y, l(10)
      break
    case l(3)
      continue
    case l(4)
      iadd r0.y, r0.y, l(1000)
      break
  endswitch
endloop
store_raw u0.x, l(0), r0.y
ret
