# The program of line formation, with names for its states and for two conditions. m4 -P makes a program of it.
m4_define(`IDLE', 0)m4_dnl
m4_define(`SEED', 1)m4_dnl
m4_define(`FOLLOWER', 2)m4_dnl
m4_define(`ROOT', 3)m4_dnl
m4_define(`AT_REST', 4)m4_dnl
m4_define(`NONE', 6)m4_dnl
m4_define(`IN_LINE', `( $1 . state = SEED or $1 . state = AT_REST )')m4_dnl
m4_define(`BEHIND', `not at_head $1 and $1 . state = FOLLOWER and not peer_expanded $1 and $1 . parent = peer_dir $1')m4_dnl
amoebot 1
program
guard off
var state AT_REST
var parent NONE
var aim NONE
action root
when contracted and ( state = IDLE or state = FOLLOWER ) and any p in ports IN_LINE(p)
do parent := NONE ; state := ROOT
action follow
when contracted and state = IDLE and any p in ports ( p . state = FOLLOWER or p . state = ROOT )
do let q := first p in ports ( p . state = FOLLOWER or p . state = ROOT ) ; parent := dir q ; state := FOLLOWER
action retire
when contracted and state = ROOT and any p in ports ( IN_LINE(p) and p . aim = peer_dir p )
do let q := first p in ports ( IN_LINE(p) and p . aim = peer_dir p ) ; aim := dir turn q 3 ; state := AT_REST
action go
when contracted and state = ROOT and any p in ports ( IN_LINE(p) and free turn p 1 )
move expand turn first p in ports ( IN_LINE(p) and free turn p 1 ) 1
action drag
when expanded and ( state = FOLLOWER or state = ROOT )
 and not any p in ports ( p . state = IDLE ) and any p in ports ( BEHIND(p) )
do let q := first p in ports ( BEHIND(p) ) ; q . parent := mod6 ( inner - dir q + peer_dir q + 3 )
move pull q
action rest
when expanded and ( state = FOLLOWER or state = ROOT )
 and not any p in ports ( p . state = IDLE or not at_head p and p . state = FOLLOWER and peer_head p and p . parent = peer_dir p )
move contract tail
end
