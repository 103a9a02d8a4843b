MODULE M
VAR num n;
VAR bool b;
VAR string s;
VAR robjoint r;
VAR extjoint e;
VAR jointtarget t;
VAR speeddata v;
VAR robjoint q := [0,1,0,0,0,3];
VAR extjoint f := [0,0,0,0,0,1];
VAR jointtarget u := [[2,2,2,2,2,2],[0,1,0,0,0,0]];
VAR speeddata w := [4,5,6,7];
VAR intnum i;
VAR shapedata shape;
VAR wztemporary zone;
VAR wzstationary area;
VAR num list{12};
VAR bool same{4};
PROC main()
VAR tasks k;
t.extax.eax_b := 1;
t.robax := [2,2,2,2,2,2];
r := [0,1,0,0,0,3];
e.EAX_F := 1;
v := [4,5,6,7];
v.v_Reax := 1;
k.TaskName := "A";
s := k.TASKNAME;
list{1} := r.RAX_1;
list{2} := r.Rax_2;
list{3} := t.Robax.raX_5;
list{4} := t.ExtAx.Eax_A;
list{5} := t.extax.EAX_B;
list{6} := v.V_TCP;
list{7} := v.v_ori;
list{8} := v.v_LEAX;
list{9} := v.v_reax;
list{10} := r.rAX_6;
list{11} := e.eAx_f;
list{12} := e.eax_C + e.EAX_D + e.eax_E + r.rax_3 + r.rax_4;
same{1} := r = q;
same{2} := e <> f;
same{3} := t = u;
same{4} := v <> w;
ENDPROC
ENDMODULE
