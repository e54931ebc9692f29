def M : SchedMachineModel {
  let IssueWidth = 2;
  let MicroOpBufferSize = 32;
}
let SchedModel = M in {
def PA : ProcResource<1>;
def PB : ProcResource<1>;
def PAB : ProcResGroup<[PA, PB]>;
def PD : ProcResource<1>;
def PM : ProcResource<1>;
def : WriteRes<WriteIALU, [PAB]>;
def : WriteRes<WriteIALU32, [PAB]>;
def : WriteRes<WriteShiftImm, [PAB]>;
def : WriteRes<WriteJmp, [PB]>;
def : WriteRes<WriteJal, [PB]>;
def : WriteRes<WriteJalr, [PB]>;
def : WriteRes<WriteIMul, [PA]> { let Latency = 3; }
def : WriteRes<WriteIDiv, [PD]> { let Latency = 20; let ReleaseAtCycles = [20]; }
let Latency = 4 in {
def : WriteRes<WriteLDW, [PM]>;
def : WriteRes<WriteLDD, [PM]>;
}
def : WriteRes<WriteSTW, [PM]> { let Latency = 3; }
def : WriteRes<WriteSTD, [PM]>;
}
