def M : SchedMachineModel { let IssueWidth = 2; let MicroOpBufferSize = 32; }
def PA : ProcResource<1>;
def PB : ProcResource<1>;
def PAB : ProcResGroup<[PA, PB]>;
def PD : ProcResource<1> { let BufferSize = 0; }
def : WriteRes<WriteIALU, [PAB]>;
def : WriteRes<WriteIMul, [PAB, PA]> { let Latency = 3; }
def : WriteRes<WriteIDiv, [PD]> { let Latency = 20; let ReleaseAtCycles = [20]; let NumMicroOps = 5; }
def Wide : SchedWriteRes<[PB]> { let SingleIssue = 1; }
def : InstRW<[Wide, ReadIMul], (instrs SUB, FENCE_TSO, VADD_VV)>;
def : ReadAdvance<ReadIALU, 2, [WriteIMul]>;
def : ReadAdvance<ReadIALU, -1>;
def : ReadAdvance<ReadIMul, 1>;
def : RegisterFile<40, [GPRC, GPR32], [2, 1]>;
def : RetireControlUnit<16, -1>;
def : LoadQueue<PD>;
