cs_5_0
dcl_constantbuffer cb0[1], immediateIndexed
dcl_resource_structured t0, 16
dcl_uav_structured u0, 16
dcl_input vThreadID.x
dcl_temps 1
dcl_thread_group 64, 1, 1
uge r0.x, vThreadID.x, cb0[0].x
retc_nz r0.x
ld_structured r0.xyzw, vThreadID.x, l(0), t0.xyzw
store_structured u0.xyzw, vThreadID.x, l(0), r0.xyzw
ret
