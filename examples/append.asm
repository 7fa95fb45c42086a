cs_5_0
dcl_resource_raw t0
dcl_uav_structured u1, 4
dcl_input vThreadID.x
dcl_temps 1
dcl_thread_group 64, 1, 1
ishl r0.x, vThreadID.x, l(2)
ld_raw r0.x, r0.x, t0.xxxx
ult r0.y, l(100), r0.x
if_nz r0.y
  imm_atomic_alloc r0.z, u1
  store_structured u1.x, r0.z, l(0), r0.x
endif
ret
