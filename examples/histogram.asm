cs_5_0
dcl_globalFlags refactoringAllowed
dcl_constantbuffer cb0[1], immediateIndexed
dcl_resource_structured t0, 4
dcl_uav_raw u0
dcl_input vThreadIDInGroupFlattened
dcl_input vThreadID.x
dcl_temps 1
dcl_tgsm_structured g0, 4, 256
dcl_thread_group 256, 1, 1
store_structured g0.x, vThreadIDInGroupFlattened.x, l(0), l(0)
sync_g_t
ult r0.x, vThreadID.x, cb0[0].x
if_nz r0.x
  ld_structured r0.x, vThreadID.x, l(0), t0.xxxx
  and r0.x, r0.x, l(255)
  mov r0.y, l(0)
  atomic_iadd g0, r0.xyxx, l(1)
endif
sync_g_t
ld_structured r0.x, vThreadIDInGroupFlattened.x, l(0), g0.xxxx
ishl r0.y, vThreadIDInGroupFlattened.x, l(2)
atomic_iadd u0, r0.y, r0.x
ret
