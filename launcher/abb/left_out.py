"""The instructions that are left out: a line of a module with one of them becomes a comment. In a cell they change nothing."""

LEFT_OUT = frozenset(
    """
    accset velset confl confj singarea cirpathmode cornerpathwarning motionprocessmodeset pathacclim pathresol speedlimaxis speedlimcheckpoint
    speedrefresh worldacclim softelbow
    gripload mechunitload softact softdeact tuneservo tunereset motionsup ditheract ditherdeact hollowwristreset setleadthrough
    fricidinit fricidevaluate fricidsetfriclevels resettorquemargin resetaxisdistance resetaxismovetime gettorquemargin getjointdata
    actunit deactunit
    stopmove startmove startmoveretry stopmovereset storepath restopath clearpath pathrecstart pathrecstop pathrecmovebwd pathrecmovefwd
    stepbwdpath
    syncmoveundo syncmovesuspend syncmoveresume waitrob
    waitwobj dropwobj waitsensor dropsensor synctosensor supsyncsensoron supsyncsensoroff acteventbuffer deacteventbuffer
    ackitmtgt flushitmsrc qstartitmsrc qstopitmsrc resetflowcount nextitmtgt usereachabletargets
    clkstart clkstop
    open close write writebin writestrbin writeanybin writevar writevararr writeblock rewind cleariobuff makedir removedir removefile copyfile
    renamefile opendir closedir
    socketcreate socketconnect socketbind socketlisten socketaccept socketsend socketsendto socketreceive socketreceivefrom socketclose
    clearrawbytes copyrawbytes packrawbytes packdnheader writerawbytes
    rmqfindslot rmqsendmessage rmqsendwait rmqemptyqueue rmqgetmessage rmqgetmsgdata rmqgetmsgheader scwrite siconnect siclose
    sigetcyclic sisetcyclic
    errlog tpshow uishow resetretrycount skipwarn readerrdata gettrapdata setsysdata systemstopaction resetppmoved
    ioenable iodisable iobusstart iobusstate aliascamera
    spystart spystop testsigndefine testsignreset pathlengthreset pathlengthstart pathlengthstop triggspeed triggstopproc
    triggdatareset
    arcrefresh arckill caprefresh capsetstopmode capcondsetdo capaptrsetup caplatrsetup setforce stcalib sttune sttunereset stindgun
    stindgunreset indgunmove indgunmovereset recalctcp
    corrcon corrdiscon corrclear corrwrite egmreset egmgetid
    camsetprogrammode camsetrunmode camflush camloadjob camstartloadjob camwaitloadjob camreqimage camsetexposure camsetparameter
    texttabinstall setupcyclicbool removecyclicbool removeallcyclicbool savecfgdata writecfgdata readcfgdata
    load unload startload waitload cancelload save erasemodule checkprogref
    fcact fcdeact fccalib fccondforce fccondpos fccondwaitwhile fcrefcircle fcrefforce fcrefline fcrefmoveframe fcrefrot fcrefspiral fcrefstart
    fcrefstop fcspdchgact fcspdchgdeact fcsupvforce fcsupvpos
    stopen stclose initsuperv setupsuperv removesuperv capaptrsetupai capaptrsetupao capaptrsetuppers capequidist capnoprocess capweavesync
    prxactivandstorerecord prxactivrecord prxdbgstorerecord prxdeactrecord prxresetpos prxresetrecords prxsetposoffset
    prxsetrecordsampletime prxsetsyncalarm prxstartrecord prxstoprecord prxstorerecord prxuserecord prxusefilerecord
    ierror ipathpos irmqmessage aliasioreset
    safetycontrollersyncrequest eoffson eoffsoff eoffsset pdispon pdispoff pdispset
    """.split()
)
# Those that change what the moves after them mean: they are told under what is to be decided.
TOLD = frozenset("pdispset pdispon pdispoff eoffsset eoffson eoffsoff softact ierror ipathpos irmqmessage fcact stclose stopen".split())
