// One micro-op a cycle, a reorder buffer of 8, and for each class that is no access to memory a latency of
// one cycle on no resource.
def M : SchedMachineModel {
  let IssueWidth = 1;
  let MicroOpBufferSize = 8;
}
def : WriteRes<WriteIALU, []>;
def : WriteRes<WriteIALU32, []>;
def : WriteRes<WriteShiftImm, []>;
def : WriteRes<WriteShiftImm32, []>;
def : WriteRes<WriteShiftReg, []>;
def : WriteRes<WriteShiftReg32, []>;
def : WriteRes<WriteIMul, []>;
def : WriteRes<WriteIMul32, []>;
def : WriteRes<WriteIDiv, []>;
def : WriteRes<WriteIDiv32, []>;
def : WriteRes<WriteJmp, []>;
def : WriteRes<WriteJal, []>;
def : WriteRes<WriteJalr, []>;
