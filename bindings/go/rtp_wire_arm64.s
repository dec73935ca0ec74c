// Made by generated/go/make of generated/rtp_wire-Linux-aarch64.s and generated/go/memory-aarch64.s: do not edit.

//go:build gc

#include "textflag.h"
#include "funcdata.h"

// At most 0 bytes of the stack.
TEXT ·text_version(SB), 0, $16-4
	NO_LOCAL_POINTERS
	MOVD R30, 16(RSP)
	ADD $16, RSP
	CALL rtp_wire<>+62952(SB)
	SUB $16, RSP
	MOVW R0, ret+0(FP)
	RET

// At most 0 bytes of the stack.
TEXT ·text_is_rtcp(SB), 0, $16-17
	NO_LOCAL_POINTERS
	MOVD datagram+0(FP), R0
	MOVD n+8(FP), R1
	MOVD R30, 16(RSP)
	ADD $16, RSP
	CALL rtp_wire<>+56760(SB)
	SUB $16, RSP
	MOVB R0, ret+16(FP)
	RET

// At most 0 bytes of the stack.
TEXT ·text_packet_parse(SB), 0, $16-28
	NO_LOCAL_POINTERS
	MOVD datagram+0(FP), R0
	MOVD n+8(FP), R1
	MOVD packet+16(FP), R2
	MOVD R30, 16(RSP)
	ADD $16, RSP
	CALL rtp_wire<>+90120(SB)
	SUB $16, RSP
	MOVW R0, ret+24(FP)
	RET

// At most 0 bytes of the stack.
TEXT ·text_set_payload_type(SB), 0, $16-28
	NO_LOCAL_POINTERS
	MOVD datagram+0(FP), R0
	MOVD n+8(FP), R1
	MOVBU payload_type+16(FP), R2
	MOVD R30, 16(RSP)
	ADD $16, RSP
	CALL rtp_wire<>+83904(SB)
	SUB $16, RSP
	MOVW R0, ret+24(FP)
	RET

// At most 0 bytes of the stack.
TEXT ·text_set_fields(SB), 0, $16-28
	NO_LOCAL_POINTERS
	MOVD datagram+0(FP), R0
	MOVD n+8(FP), R1
	MOVD fields+16(FP), R2
	MOVD R30, 16(RSP)
	ADD $16, RSP
	CALL rtp_wire<>+83624(SB)
	SUB $16, RSP
	MOVW R0, ret+24(FP)
	RET

// At most 0 bytes of the stack.
TEXT ·text_set_csrc(SB), 0, $16-36
	NO_LOCAL_POINTERS
	MOVD datagram+0(FP), R0
	MOVD n+8(FP), R1
	MOVD index+16(FP), R2
	MOVWU source+24(FP), R3
	MOVD R30, 16(RSP)
	ADD $16, RSP
	CALL rtp_wire<>+81216(SB)
	SUB $16, RSP
	MOVW R0, ret+32(FP)
	RET

// At most 128 bytes of the stack.
TEXT ·text_set_element(SB), 0, $144-44
	NO_LOCAL_POINTERS
	MOVD datagram+0(FP), R0
	MOVD n+8(FP), R1
	MOVBU id+16(FP), R2
	MOVD data+24(FP), R3
	MOVD data_len+32(FP), R4
	MOVD R30, 144(RSP)
	ADD $144, RSP
	CALL rtp_wire<>+106428(SB)
	SUB $144, RSP
	MOVW R0, ret+40(FP)
	RET

// At most 144 bytes of the stack.
TEXT ·text_remove_element(SB), 0, $160-28
	NO_LOCAL_POINTERS
	MOVD datagram+0(FP), R0
	MOVD n+8(FP), R1
	MOVBU id+16(FP), R2
	MOVD R30, 160(RSP)
	ADD $160, RSP
	CALL rtp_wire<>+80292(SB)
	SUB $160, RSP
	MOVW R0, ret+24(FP)
	RET

// At most 0 bytes of the stack.
TEXT ·text_set_padding(SB), 0, $16-28
	NO_LOCAL_POINTERS
	MOVD datagram+0(FP), R0
	MOVD n+8(FP), R1
	MOVBU has_padding+16(FP), R2
	MOVD R30, 16(RSP)
	ADD $16, RSP
	CALL rtp_wire<>+82580(SB)
	SUB $16, RSP
	MOVW R0, ret+24(FP)
	RET

// At most 0 bytes of the stack.
TEXT ·text_remove_padding(SB), 0, $16-28
	NO_LOCAL_POINTERS
	MOVD datagram+0(FP), R0
	MOVD n+8(FP), R1
	MOVD new_len+16(FP), R2
	MOVD R30, 16(RSP)
	ADD $16, RSP
	CALL rtp_wire<>+80548(SB)
	SUB $16, RSP
	MOVW R0, ret+24(FP)
	RET

// At most 416 bytes of the stack.
TEXT ·text_put_element(SB), 0, $432-60
	NO_LOCAL_POINTERS
	MOVD buf+0(FP), R0
	MOVD size+8(FP), R1
	MOVD n+16(FP), R2
	MOVBU id+24(FP), R3
	MOVD data+32(FP), R4
	MOVD data_len+40(FP), R5
	MOVBU allowed+48(FP), R6
	MOVD R30, 432(RSP)
	ADD $432, RSP
	CALL rtp_wire<>+106472(SB)
	SUB $432, RSP
	MOVW R0, ret+56(FP)
	RET

// At most 368 bytes of the stack.
TEXT ·text_add_element(SB), 0, $384-60
	NO_LOCAL_POINTERS
	MOVD buf+0(FP), R0
	MOVD size+8(FP), R1
	MOVD n+16(FP), R2
	MOVBU id+24(FP), R3
	MOVD data+32(FP), R4
	MOVD data_len+40(FP), R5
	MOVBU allowed+48(FP), R6
	MOVD R30, 384(RSP)
	ADD $384, RSP
	CALL rtp_wire<>+106516(SB)
	SUB $384, RSP
	MOVW R0, ret+56(FP)
	RET

// At most 160 bytes of the stack.
TEXT ·text_compact(SB), 0, $176-28
	NO_LOCAL_POINTERS
	MOVD buf+0(FP), R0
	MOVD size+8(FP), R1
	MOVD n+16(FP), R2
	MOVD R30, 176(RSP)
	ADD $176, RSP
	CALL rtp_wire<>+71588(SB)
	SUB $176, RSP
	MOVW R0, ret+24(FP)
	RET

// At most 416 bytes of the stack.
TEXT ·text_change_form(SB), 0, $432-36
	NO_LOCAL_POINTERS
	MOVD buf+0(FP), R0
	MOVD size+8(FP), R1
	MOVD n+16(FP), R2
	MOVBU form+24(FP), R3
	MOVD R30, 432(RSP)
	ADD $432, RSP
	CALL rtp_wire<>+71092(SB)
	SUB $432, RSP
	MOVW R0, ret+32(FP)
	RET

// At most 64 bytes of the stack.
TEXT ·text_remove_block(SB), 0, $80-28
	NO_LOCAL_POINTERS
	MOVD buf+0(FP), R0
	MOVD size+8(FP), R1
	MOVD n+16(FP), R2
	MOVD R30, 80(RSP)
	ADD $80, RSP
	CALL rtp_wire<>+79896(SB)
	SUB $80, RSP
	MOVW R0, ret+24(FP)
	RET

// At most 144 bytes of the stack.
TEXT ·text_put_block(SB), 0, $160-52
	NO_LOCAL_POINTERS
	MOVD buf+0(FP), R0
	MOVD size+8(FP), R1
	MOVD n+16(FP), R2
	MOVHU profile+24(FP), R3
	MOVD body+32(FP), R4
	MOVD body_len+40(FP), R5
	MOVD R30, 160(RSP)
	ADD $160, RSP
	CALL rtp_wire<>+106560(SB)
	SUB $160, RSP
	MOVW R0, ret+48(FP)
	RET

// At most 48 bytes of the stack.
TEXT ·text_next_element(SB), 0, $64-44
	NO_LOCAL_POINTERS
	MOVD body+0(FP), R0
	MOVD body_len+8(FP), R1
	MOVBU form+16(FP), R2
	MOVD at+24(FP), R3
	MOVD element+32(FP), R4
	MOVD R30, 64(RSP)
	ADD $64, RSP
	CALL rtp_wire<>+60604(SB)
	SUB $64, RSP
	MOVW R0, ret+40(FP)
	RET

// At most 64 bytes of the stack.
TEXT ·text_next_elements(SB), 0, $80-56
	NO_LOCAL_POINTERS
	MOVD body+0(FP), R0
	MOVD body_len+8(FP), R1
	MOVBU form+16(FP), R2
	MOVD at+24(FP), R3
	MOVD elements+32(FP), R4
	MOVD count+40(FP), R5
	MOVD R30, 80(RSP)
	ADD $80, RSP
	CALL rtp_wire<>+60960(SB)
	SUB $80, RSP
	MOVD R0, ret+48(FP)
	RET

// At most 80 bytes of the stack.
TEXT ·text_last_element(SB), 0, $96-36
	NO_LOCAL_POINTERS
	MOVD body+0(FP), R0
	MOVD body_len+8(FP), R1
	MOVBU form+16(FP), R2
	MOVBU id+17(FP), R3
	MOVD element+24(FP), R4
	MOVD R30, 96(RSP)
	ADD $96, RSP
	CALL rtp_wire<>+57080(SB)
	SUB $96, RSP
	MOVW R0, ret+32(FP)
	RET

// At most 160 bytes of the stack.
TEXT ·text_kind_of_uri(SB), 0, $176-17
	NO_LOCAL_POINTERS
	MOVD uri+0(FP), R0
	MOVD n+8(FP), R1
	MOVD R30, 176(RSP)
	ADD $176, RSP
	CALL rtp_wire<>+92308(SB)
	SUB $176, RSP
	MOVB R0, ret+16(FP)
	RET

// At most 48 bytes of the stack.
TEXT ·text_uri_of_kind(SB), 0, $64-36
	NO_LOCAL_POINTERS
	MOVBU kind+0(FP), R0
	MOVD buf+8(FP), R1
	MOVD size+16(FP), R2
	MOVD n+24(FP), R3
	MOVD R30, 64(RSP)
	ADD $64, RSP
	CALL rtp_wire<>+93704(SB)
	SUB $64, RSP
	MOVW R0, ret+32(FP)
	RET

// At most 0 bytes of the stack.
TEXT ·text_map_set(SB), 0, $16-20
	NO_LOCAL_POINTERS
	MOVD m+0(FP), R0
	MOVBU id+8(FP), R1
	MOVBU kind+9(FP), R2
	MOVD R30, 16(RSP)
	ADD $16, RSP
	CALL rtp_wire<>+57608(SB)
	SUB $16, RSP
	MOVW R0, ret+16(FP)
	RET

// At most 0 bytes of the stack.
TEXT ·text_id_of(SB), 0, $16-17
	NO_LOCAL_POINTERS
	MOVD m+0(FP), R0
	MOVBU kind+8(FP), R1
	MOVD R30, 16(RSP)
	ADD $16, RSP
	CALL rtp_wire<>+56684(SB)
	SUB $16, RSP
	MOVB R0, ret+16(FP)
	RET

// At most 0 bytes of the stack.
TEXT ·text_map_standard(SB), 0, $16-8
	NO_LOCAL_POINTERS
	MOVD m+0(FP), R0
	MOVD R30, 16(RSP)
	ADD $16, RSP
	CALL rtp_wire<>+57660(SB)
	SUB $16, RSP
	RET

// At most 352 bytes of the stack.
TEXT ·text_values_read(SB), 0, $368-44
	NO_LOCAL_POINTERS
	MOVD body+0(FP), R0
	MOVD body_len+8(FP), R1
	MOVBU form+16(FP), R2
	MOVD m+24(FP), R3
	MOVD values+32(FP), R4
	MOVD R30, 368(RSP)
	ADD $368, RSP
	CALL rtp_wire<>+62828(SB)
	SUB $368, RSP
	MOVW R0, ret+40(FP)
	RET

// At most 112 bytes of the stack.
TEXT ·text_data_of(SB), 0, $128-44
	NO_LOCAL_POINTERS
	MOVBU kind+0(FP), R0
	MOVD values+8(FP), R1
	MOVD buf+16(FP), R2
	MOVD size+24(FP), R3
	MOVD n+32(FP), R4
	MOVD R30, 128(RSP)
	ADD $128, RSP
	CALL rtp_wire<>+54260(SB)
	SUB $128, RSP
	MOVW R0, ret+40(FP)
	RET

// At most 352 bytes of the stack.
TEXT ·text_read(SB), 0, $368-36
	NO_LOCAL_POINTERS
	MOVD datagram+0(FP), R0
	MOVD n+8(FP), R1
	MOVD m+16(FP), R2
	MOVD packet+24(FP), R3
	MOVD R30, 368(RSP)
	ADD $368, RSP
	CALL rtp_wire<>+91220(SB)
	SUB $368, RSP
	MOVW R0, ret+32(FP)
	RET

// At most 352 bytes of the stack.
TEXT ·text_parse(SB), 0, $368-36
	NO_LOCAL_POINTERS
	MOVD datagram+0(FP), R0
	MOVD n+8(FP), R1
	MOVD m+16(FP), R2
	MOVD header+24(FP), R3
	MOVD R30, 368(RSP)
	ADD $368, RSP
	CALL rtp_wire<>+72688(SB)
	SUB $368, RSP
	MOVW R0, ret+32(FP)
	RET

// At most 384 bytes of the stack.
TEXT ·text_parse_layers(SB), 0, $400-44
	NO_LOCAL_POINTERS
	MOVD datagram+0(FP), R0
	MOVD n+8(FP), R1
	MOVD m+16(FP), R2
	MOVD header+24(FP), R3
	MOVD layers+32(FP), R4
	MOVD R30, 400(RSP)
	ADD $400, RSP
	CALL rtp_wire<>+73224(SB)
	SUB $400, RSP
	MOVW R0, ret+40(FP)
	RET

// At most 128 bytes of the stack.
TEXT ·text_wire_len(SB), 0, $144-28
	NO_LOCAL_POINTERS
	MOVD m+0(FP), R0
	MOVD header+8(FP), R1
	MOVD n+16(FP), R2
	MOVD R30, 144(RSP)
	ADD $144, RSP
	CALL rtp_wire<>+99056(SB)
	SUB $144, RSP
	MOVW R0, ret+24(FP)
	RET

// At most 352 bytes of the stack.
TEXT ·text_write(SB), 0, $368-44
	NO_LOCAL_POINTERS
	MOVD m+0(FP), R0
	MOVD header+8(FP), R1
	MOVD buf+16(FP), R2
	MOVD size+24(FP), R3
	MOVD n+32(FP), R4
	MOVD R30, 368(RSP)
	ADD $368, RSP
	CALL rtp_wire<>+105736(SB)
	SUB $368, RSP
	MOVW R0, ret+40(FP)
	RET

// At most 224 bytes of the stack.
TEXT ·text_wire_len_layers(SB), 0, $240-36
	NO_LOCAL_POINTERS
	MOVD m+0(FP), R0
	MOVD header+8(FP), R1
	MOVD layers+16(FP), R2
	MOVD n+24(FP), R3
	MOVD R30, 240(RSP)
	ADD $240, RSP
	CALL rtp_wire<>+100524(SB)
	SUB $240, RSP
	MOVW R0, ret+32(FP)
	RET

// At most 432 bytes of the stack.
TEXT ·text_write_layers(SB), 0, $448-52
	NO_LOCAL_POINTERS
	MOVD m+0(FP), R0
	MOVD header+8(FP), R1
	MOVD layers+16(FP), R2
	MOVD buf+24(FP), R3
	MOVD size+32(FP), R4
	MOVD n+40(FP), R5
	MOVD R30, 448(RSP)
	ADD $448, RSP
	CALL rtp_wire<>+102084(SB)
	SUB $448, RSP
	MOVW R0, ret+48(FP)
	RET

// At most 192 bytes of the stack.
TEXT ·text_left_out(SB), 0, $208-28
	NO_LOCAL_POINTERS
	MOVD m+0(FP), R0
	MOVD header+8(FP), R1
	MOVD kinds+16(FP), R2
	MOVD R30, 208(RSP)
	ADD $208, RSP
	CALL rtp_wire<>+95108(SB)
	SUB $208, RSP
	MOVW R0, ret+24(FP)
	RET

// At most 320 bytes of the stack.
TEXT ·text_left_out_layers(SB), 0, $336-36
	NO_LOCAL_POINTERS
	MOVD m+0(FP), R0
	MOVD header+8(FP), R1
	MOVD layers+16(FP), R2
	MOVD kinds+24(FP), R3
	MOVD R30, 336(RSP)
	ADD $336, RSP
	CALL rtp_wire<>+97016(SB)
	SUB $336, RSP
	MOVW R0, ret+32(FP)
	RET

// At most 288 bytes of the stack.
TEXT ·text_write_with_form(SB), 0, $312-76
	NO_LOCAL_POINTERS
	MOVD header+0(FP), R0
	MOVD data+8(FP), R1
	MOVD data_len+16(FP), R2
	MOVD elements+24(FP), R3
	MOVD count+32(FP), R4
	MOVBU form+40(FP), R5
	MOVD buf+48(FP), R6
	MOVD size+56(FP), R7
	MOVD n+64(FP), R9
	MOVD R30, 304(RSP)
	ADD $304, RSP
	MOVD R9, 16(RSP)
	CALL rtp_wire<>+106604(SB)
	SUB $304, RSP
	MOVW R0, ret+72(FP)
	RET

// At most 176 bytes of the stack.
TEXT ·text_write_elements(SB), 0, $192-68
	NO_LOCAL_POINTERS
	MOVD data+0(FP), R0
	MOVD data_len+8(FP), R1
	MOVD elements+16(FP), R2
	MOVD count+24(FP), R3
	MOVBU form+32(FP), R4
	MOVD buf+40(FP), R5
	MOVD size+48(FP), R6
	MOVD n+56(FP), R7
	MOVD R30, 192(RSP)
	ADD $192, RSP
	CALL rtp_wire<>+106656(SB)
	SUB $192, RSP
	MOVW R0, ret+64(FP)
	RET

// At most 0 bytes of the stack.
TEXT ·text_read_send_time(SB), 0, $16-28
	NO_LOCAL_POINTERS
	MOVD data+0(FP), R0
	MOVD data_len+8(FP), R1
	MOVD units+16(FP), R2
	MOVD R30, 16(RSP)
	ADD $16, RSP
	CALL rtp_wire<>+89652(SB)
	SUB $16, RSP
	MOVW R0, ret+24(FP)
	RET

// At most 0 bytes of the stack.
TEXT ·text_write_send_time(SB), 0, $16-36
	NO_LOCAL_POINTERS
	MOVWU units+0(FP), R0
	MOVD buf+8(FP), R1
	MOVD size+16(FP), R2
	MOVD n+24(FP), R3
	MOVD R30, 16(RSP)
	ADD $16, RSP
	CALL rtp_wire<>+66644(SB)
	SUB $16, RSP
	MOVW R0, ret+32(FP)
	RET

// At most 0 bytes of the stack.
TEXT ·text_extend_send_time(SB), 0, $16-24
	NO_LOCAL_POINTERS
	MOVD around+0(FP), R0
	MOVWU units+8(FP), R1
	MOVD R30, 16(RSP)
	ADD $16, RSP
	CALL rtp_wire<>+56404(SB)
	SUB $16, RSP
	MOVD R0, ret+16(FP)
	RET

// At most 0 bytes of the stack.
TEXT ·text_read_transmission_offset(SB), 0, $16-28
	NO_LOCAL_POINTERS
	MOVD data+0(FP), R0
	MOVD data_len+8(FP), R1
	MOVD offset+16(FP), R2
	MOVD R30, 16(RSP)
	ADD $16, RSP
	CALL rtp_wire<>+89728(SB)
	SUB $16, RSP
	MOVW R0, ret+24(FP)
	RET

// At most 0 bytes of the stack.
TEXT ·text_write_transmission_offset(SB), 0, $16-36
	NO_LOCAL_POINTERS
	MOVWU offset+0(FP), R0
	MOVD buf+8(FP), R1
	MOVD size+16(FP), R2
	MOVD n+24(FP), R3
	MOVD R30, 16(RSP)
	ADD $16, RSP
	CALL rtp_wire<>+66732(SB)
	SUB $16, RSP
	MOVW R0, ret+32(FP)
	RET

// At most 0 bytes of the stack.
TEXT ·text_read_frame_marking(SB), 0, $16-28
	NO_LOCAL_POINTERS
	MOVD data+0(FP), R0
	MOVD data_len+8(FP), R1
	MOVD marking+16(FP), R2
	MOVD R30, 16(RSP)
	ADD $16, RSP
	CALL rtp_wire<>+94652(SB)
	SUB $16, RSP
	MOVW R0, ret+24(FP)
	RET

// At most 48 bytes of the stack.
TEXT ·text_write_frame_marking(SB), 0, $64-36
	NO_LOCAL_POINTERS
	MOVD marking+0(FP), R0
	MOVD buf+8(FP), R1
	MOVD size+16(FP), R2
	MOVD n+24(FP), R3
	MOVD R30, 64(RSP)
	ADD $64, RSP
	CALL rtp_wire<>+65508(SB)
	SUB $64, RSP
	MOVW R0, ret+32(FP)
	RET

// At most 0 bytes of the stack.
TEXT ·text_read_orientation(SB), 0, $16-28
	NO_LOCAL_POINTERS
	MOVD data+0(FP), R0
	MOVD data_len+8(FP), R1
	MOVD orientation+16(FP), R2
	MOVD R30, 16(RSP)
	ADD $16, RSP
	CALL rtp_wire<>+61924(SB)
	SUB $16, RSP
	MOVW R0, ret+24(FP)
	RET

// At most 0 bytes of the stack.
TEXT ·text_write_orientation(SB), 0, $16-36
	NO_LOCAL_POINTERS
	MOVD orientation+0(FP), R0
	MOVD buf+8(FP), R1
	MOVD size+16(FP), R2
	MOVD n+24(FP), R3
	MOVD R30, 16(RSP)
	ADD $16, RSP
	CALL rtp_wire<>+66216(SB)
	SUB $16, RSP
	MOVW R0, ret+32(FP)
	RET

// At most 0 bytes of the stack.
TEXT ·text_is_token(SB), 0, $16-17
	NO_LOCAL_POINTERS
	MOVD data+0(FP), R0
	MOVD data_len+8(FP), R1
	MOVD R30, 16(RSP)
	ADD $16, RSP
	CALL rtp_wire<>+56912(SB)
	SUB $16, RSP
	MOVB R0, ret+16(FP)
	RET

// At most 0 bytes of the stack.
TEXT ·text_is_stream_id(SB), 0, $16-17
	NO_LOCAL_POINTERS
	MOVD data+0(FP), R0
	MOVD data_len+8(FP), R1
	MOVD R30, 16(RSP)
	ADD $16, RSP
	CALL rtp_wire<>+56824(SB)
	SUB $16, RSP
	MOVB R0, ret+16(FP)
	RET

// At most 0 bytes of the stack.
TEXT ·text_read_timing(SB), 0, $16-28
	NO_LOCAL_POINTERS
	MOVD data+0(FP), R0
	MOVD data_len+8(FP), R1
	MOVD timing+16(FP), R2
	MOVD R30, 16(RSP)
	ADD $16, RSP
	CALL rtp_wire<>+94912(SB)
	SUB $16, RSP
	MOVW R0, ret+24(FP)
	RET

// At most 64 bytes of the stack.
TEXT ·text_write_timing(SB), 0, $80-36
	NO_LOCAL_POINTERS
	MOVD timing+0(FP), R0
	MOVD buf+8(FP), R1
	MOVD size+16(FP), R2
	MOVD n+24(FP), R3
	MOVD R30, 80(RSP)
	ADD $80, RSP
	CALL rtp_wire<>+89816(SB)
	SUB $80, RSP
	MOVW R0, ret+32(FP)
	RET

// At most 0 bytes of the stack.
TEXT ·text_read_transport_number(SB), 0, $16-28
	NO_LOCAL_POINTERS
	MOVD data+0(FP), R0
	MOVD data_len+8(FP), R1
	MOVD number+16(FP), R2
	MOVD R30, 16(RSP)
	ADD $16, RSP
	CALL rtp_wire<>+62064(SB)
	SUB $16, RSP
	MOVW R0, ret+24(FP)
	RET

// At most 0 bytes of the stack.
TEXT ·text_write_transport_number(SB), 0, $16-36
	NO_LOCAL_POINTERS
	MOVD number+0(FP), R0
	MOVD buf+8(FP), R1
	MOVD size+16(FP), R2
	MOVD n+24(FP), R3
	MOVD R30, 16(RSP)
	ADD $16, RSP
	CALL rtp_wire<>+66824(SB)
	SUB $16, RSP
	MOVW R0, ret+32(FP)
	RET

// At most 0 bytes of the stack.
TEXT ·text_read_mixer_level(SB), 0, $16-44
	NO_LOCAL_POINTERS
	MOVD data+0(FP), R0
	MOVD data_len+8(FP), R1
	MOVD csrc_count+16(FP), R2
	MOVD index+24(FP), R3
	MOVD level+32(FP), R4
	MOVD R30, 16(RSP)
	ADD $16, RSP
	CALL rtp_wire<>+89452(SB)
	SUB $16, RSP
	MOVW R0, ret+40(FP)
	RET

// At most 0 bytes of the stack.
TEXT ·text_write_mixer_levels(SB), 0, $16-44
	NO_LOCAL_POINTERS
	MOVD levels+0(FP), R0
	MOVD count+8(FP), R1
	MOVD buf+16(FP), R2
	MOVD size+24(FP), R3
	MOVD n+32(FP), R4
	MOVD R30, 16(RSP)
	ADD $16, RSP
	CALL rtp_wire<>+65896(SB)
	SUB $16, RSP
	MOVW R0, ret+40(FP)
	RET

// At most 0 bytes of the stack.
TEXT ·text_read_ntp_64(SB), 0, $16-28
	NO_LOCAL_POINTERS
	MOVD data+0(FP), R0
	MOVD data_len+8(FP), R1
	MOVD time+16(FP), R2
	MOVD R30, 16(RSP)
	ADD $16, RSP
	CALL rtp_wire<>+89600(SB)
	SUB $16, RSP
	MOVW R0, ret+24(FP)
	RET

// At most 0 bytes of the stack.
TEXT ·text_write_ntp_64(SB), 0, $16-36
	NO_LOCAL_POINTERS
	MOVD time+0(FP), R0
	MOVD buf+8(FP), R1
	MOVD size+16(FP), R2
	MOVD n+24(FP), R3
	MOVD R30, 16(RSP)
	ADD $16, RSP
	CALL rtp_wire<>+66160(SB)
	SUB $16, RSP
	MOVW R0, ret+32(FP)
	RET

// At most 0 bytes of the stack.
TEXT ·text_read_ntp_56(SB), 0, $16-28
	NO_LOCAL_POINTERS
	MOVD data+0(FP), R0
	MOVD data_len+8(FP), R1
	MOVD time+16(FP), R2
	MOVD R30, 16(RSP)
	ADD $16, RSP
	CALL rtp_wire<>+89516(SB)
	SUB $16, RSP
	MOVW R0, ret+24(FP)
	RET

// At most 0 bytes of the stack.
TEXT ·text_write_ntp_56(SB), 0, $16-36
	NO_LOCAL_POINTERS
	MOVD time+0(FP), R0
	MOVD buf+8(FP), R1
	MOVD size+16(FP), R2
	MOVD n+24(FP), R3
	MOVD R30, 16(RSP)
	ADD $16, RSP
	CALL rtp_wire<>+66056(SB)
	SUB $16, RSP
	MOVW R0, ret+32(FP)
	RET

// At most 0 bytes of the stack.
TEXT ·text_extend_ntp_56(SB), 0, $16-24
	NO_LOCAL_POINTERS
	MOVD around+0(FP), R0
	MOVD low+8(FP), R1
	MOVD R30, 16(RSP)
	ADD $16, RSP
	CALL rtp_wire<>+56368(SB)
	SUB $16, RSP
	MOVD R0, ret+16(FP)
	RET

// At most 0 bytes of the stack.
TEXT ·text_read_color_space(SB), 0, $16-28
	NO_LOCAL_POINTERS
	MOVD data+0(FP), R0
	MOVD data_len+8(FP), R1
	MOVD space+16(FP), R2
	MOVD R30, 16(RSP)
	ADD $16, RSP
	CALL rtp_wire<>+94396(SB)
	SUB $16, RSP
	MOVW R0, ret+24(FP)
	RET

// At most 80 bytes of the stack.
TEXT ·text_write_color_space(SB), 0, $96-36
	NO_LOCAL_POINTERS
	MOVD space+0(FP), R0
	MOVD buf+8(FP), R1
	MOVD size+16(FP), R2
	MOVD n+24(FP), R3
	MOVD R30, 96(RSP)
	ADD $96, RSP
	CALL rtp_wire<>+66972(SB)
	SUB $96, RSP
	MOVW R0, ret+32(FP)
	RET

// At most 0 bytes of the stack.
TEXT ·text_read_dependency_descriptor(SB), 0, $16-28
	NO_LOCAL_POINTERS
	MOVD data+0(FP), R0
	MOVD data_len+8(FP), R1
	MOVD descriptor+16(FP), R2
	MOVD R30, 16(RSP)
	ADD $16, RSP
	CALL rtp_wire<>+61804(SB)
	SUB $16, RSP
	MOVW R0, ret+24(FP)
	RET

// At most 0 bytes of the stack.
TEXT ·text_write_dependency_descriptor(SB), 0, $16-36
	NO_LOCAL_POINTERS
	MOVD descriptor+0(FP), R0
	MOVD buf+8(FP), R1
	MOVD size+16(FP), R2
	MOVD n+24(FP), R3
	MOVD R30, 16(RSP)
	ADD $16, RSP
	CALL rtp_wire<>+64724(SB)
	SUB $16, RSP
	MOVW R0, ret+32(FP)
	RET

// At most 0 bytes of the stack.
TEXT ·text_has_structure(SB), 0, $16-17
	NO_LOCAL_POINTERS
	MOVD data+0(FP), R0
	MOVD data_len+8(FP), R1
	MOVD R30, 16(RSP)
	ADD $16, RSP
	CALL rtp_wire<>+56636(SB)
	SUB $16, RSP
	MOVB R0, ret+16(FP)
	RET

// At most 0 bytes of the stack.
TEXT ·text_new_ids_between(SB), 0, $16-24
	NO_LOCAL_POINTERS
	MOVD from+0(FP), R0
	MOVD to+8(FP), R1
	MOVD ids+16(FP), R2
	MOVD R30, 16(RSP)
	ADD $16, RSP
	CALL rtp_wire<>+57780(SB)
	SUB $16, RSP
	RET

// At most 416 bytes of the stack.
TEXT ·text_renumber(SB), 0, $432-28
	NO_LOCAL_POINTERS
	MOVD datagram+0(FP), R0
	MOVD n+8(FP), R1
	MOVD ids+16(FP), R2
	MOVD R30, 432(RSP)
	ADD $432, RSP
	CALL rtp_wire<>+80764(SB)
	SUB $432, RSP
	MOVW R0, ret+24(FP)
	RET

// At most 80 bytes of the stack.
TEXT ·text_pad(SB), 0, $96-52
	NO_LOCAL_POINTERS
	MOVD datagram+0(FP), R0
	MOVD size+8(FP), R1
	MOVD header_len+16(FP), R2
	MOVBU pad_len+24(FP), R3
	MOVD block_size+32(FP), R4
	MOVD count+40(FP), R5
	MOVD R30, 96(RSP)
	ADD $96, RSP
	CALL rtp_wire<>+61512(SB)
	SUB $96, RSP
	MOVW R0, ret+48(FP)
	RET

// At most 0 bytes of the stack.
TEXT ·text_read_original(SB), 0, $16-28
	NO_LOCAL_POINTERS
	MOVD payload+0(FP), R0
	MOVD n+8(FP), R1
	MOVD number+16(FP), R2
	MOVD R30, 16(RSP)
	ADD $16, RSP
	CALL rtp_wire<>+62008(SB)
	SUB $16, RSP
	MOVW R0, ret+24(FP)
	RET

// At most 0 bytes of the stack.
TEXT ·text_write_original(SB), 0, $16-28
	NO_LOCAL_POINTERS
	MOVD payload+0(FP), R0
	MOVD size+8(FP), R1
	MOVD number+16(FP), R2
	MOVD R30, 16(RSP)
	ADD $16, RSP
	CALL rtp_wire<>+66372(SB)
	SUB $16, RSP
	MOVW R0, ret+24(FP)
	RET

// At most 368 bytes of the stack.
TEXT ·text_new_ids_to_retransmission(SB), 0, $384-16
	NO_LOCAL_POINTERS
	MOVD m+0(FP), R0
	MOVD ids+8(FP), R1
	MOVD R30, 384(RSP)
	ADD $384, RSP
	CALL rtp_wire<>+59332(SB)
	SUB $384, RSP
	RET

// At most 368 bytes of the stack.
TEXT ·text_new_ids_from_retransmission(SB), 0, $384-16
	NO_LOCAL_POINTERS
	MOVD m+0(FP), R0
	MOVD ids+8(FP), R1
	MOVD R30, 384(RSP)
	ADD $384, RSP
	CALL rtp_wire<>+58060(SB)
	SUB $384, RSP
	RET

// At most 512 bytes of the stack.
TEXT ·text_to_retransmission(SB), 0, $528-44
	NO_LOCAL_POINTERS
	MOVD buf+0(FP), R0
	MOVD size+8(FP), R1
	MOVD n+16(FP), R2
	MOVWU ssrc+24(FP), R3
	MOVBU payload_type+28(FP), R4
	MOVHU number+30(FP), R5
	MOVD ids+32(FP), R6
	MOVD R30, 528(RSP)
	ADD $528, RSP
	CALL rtp_wire<>+82748(SB)
	SUB $528, RSP
	MOVW R0, ret+40(FP)
	RET

// At most 480 bytes of the stack.
TEXT ·text_from_retransmission(SB), 0, $496-44
	NO_LOCAL_POINTERS
	MOVD buf+0(FP), R0
	MOVD size+8(FP), R1
	MOVD n+16(FP), R2
	MOVWU ssrc+24(FP), R3
	MOVBU payload_type+28(FP), R4
	MOVD ids+32(FP), R5
	MOVD R30, 496(RSP)
	ADD $496, RSP
	CALL rtp_wire<>+72072(SB)
	SUB $496, RSP
	MOVW R0, ret+40(FP)
	RET

// At most 0 bytes of the stack.
TEXT ·text_receiver_start(SB), 0, $16-20
	NO_LOCAL_POINTERS
	MOVD receiver+0(FP), R0
	MOVD rollover_count+8(FP), R1
	MOVD R30, 16(RSP)
	ADD $16, RSP
	CALL rtp_wire<>+84368(SB)
	SUB $16, RSP
	MOVW R0, ret+16(FP)
	RET

// At most 0 bytes of the stack.
TEXT ·text_receiver_number_of(SB), 0, $16-24
	NO_LOCAL_POINTERS
	MOVD receiver+0(FP), R0
	MOVHU sequence_number+8(FP), R1
	MOVD R30, 16(RSP)
	ADD $16, RSP
	CALL rtp_wire<>+62292(SB)
	SUB $16, RSP
	MOVD R0, ret+16(FP)
	RET

// At most 0 bytes of the stack.
TEXT ·text_receiver_accepts(SB), 0, $16-17
	NO_LOCAL_POINTERS
	MOVD receiver+0(FP), R0
	MOVD number+8(FP), R1
	MOVD R30, 16(RSP)
	ADD $16, RSP
	CALL rtp_wire<>+62196(SB)
	SUB $16, RSP
	MOVB R0, ret+16(FP)
	RET

// At most 0 bytes of the stack.
TEXT ·text_receiver_record(SB), 0, $16-16
	NO_LOCAL_POINTERS
	MOVD receiver+0(FP), R0
	MOVD number+8(FP), R1
	MOVD R30, 16(RSP)
	ADD $16, RSP
	CALL rtp_wire<>+84076(SB)
	SUB $16, RSP
	RET

// At most 0 bytes of the stack.
TEXT ·text_receiver_receive(SB), 0, $16-28
	NO_LOCAL_POINTERS
	MOVD receiver+0(FP), R0
	MOVHU sequence_number+8(FP), R1
	MOVD number+16(FP), R2
	MOVD R30, 16(RSP)
	ADD $16, RSP
	CALL rtp_wire<>+87592(SB)
	SUB $16, RSP
	MOVW R0, ret+24(FP)
	RET

// At most 0 bytes of the stack.
TEXT ·text_receiver_standing_of(SB), 0, $16-17
	NO_LOCAL_POINTERS
	MOVD receiver+0(FP), R0
	MOVD number+8(FP), R1
	MOVD R30, 16(RSP)
	ADD $16, RSP
	CALL rtp_wire<>+62360(SB)
	SUB $16, RSP
	MOVB R0, ret+16(FP)
	RET

// At most 0 bytes of the stack.
TEXT ·text_wide_receiver_start(SB), 0, $16-20
	NO_LOCAL_POINTERS
	MOVD receiver+0(FP), R0
	MOVD rollover_count+8(FP), R1
	MOVD R30, 16(RSP)
	ADD $16, RSP
	CALL rtp_wire<>+63172(SB)
	SUB $16, RSP
	MOVW R0, ret+16(FP)
	RET

// At most 0 bytes of the stack.
TEXT ·text_wide_receiver_number_of(SB), 0, $16-24
	NO_LOCAL_POINTERS
	MOVD receiver+0(FP), R0
	MOVHU sequence_number+8(FP), R1
	MOVD R30, 16(RSP)
	ADD $16, RSP
	CALL rtp_wire<>+63104(SB)
	SUB $16, RSP
	MOVD R0, ret+16(FP)
	RET

// At most 0 bytes of the stack.
TEXT ·text_wide_receiver_accepts(SB), 0, $16-33
	NO_LOCAL_POINTERS
	MOVD receiver+0(FP), R0
	MOVD words+8(FP), R1
	MOVD count+16(FP), R2
	MOVD number+24(FP), R3
	MOVD R30, 16(RSP)
	ADD $16, RSP
	CALL rtp_wire<>+62964(SB)
	SUB $16, RSP
	MOVB R0, ret+32(FP)
	RET

// At most 128 bytes of the stack.
TEXT ·text_wide_receiver_record(SB), 0, $144-36
	NO_LOCAL_POINTERS
	MOVD receiver+0(FP), R0
	MOVD words+8(FP), R1
	MOVD count+16(FP), R2
	MOVD number+24(FP), R3
	MOVD R30, 144(RSP)
	ADD $144, RSP
	CALL rtp_wire<>+88160(SB)
	SUB $144, RSP
	MOVW R0, ret+32(FP)
	RET

// At most 128 bytes of the stack.
TEXT ·text_wide_receiver_receive(SB), 0, $144-44
	NO_LOCAL_POINTERS
	MOVD receiver+0(FP), R0
	MOVD words+8(FP), R1
	MOVD count+16(FP), R2
	MOVHU sequence_number+24(FP), R3
	MOVD number+32(FP), R4
	MOVD R30, 144(RSP)
	ADD $144, RSP
	CALL rtp_wire<>+87896(SB)
	SUB $144, RSP
	MOVW R0, ret+40(FP)
	RET

// At most 0 bytes of the stack.
TEXT ·text_wide_receiver_standing_of(SB), 0, $16-33
	NO_LOCAL_POINTERS
	MOVD receiver+0(FP), R0
	MOVD words+8(FP), R1
	MOVD count+16(FP), R2
	MOVD number+24(FP), R3
	MOVD R30, 16(RSP)
	ADD $16, RSP
	CALL rtp_wire<>+67228(SB)
	SUB $16, RSP
	MOVB R0, ret+32(FP)
	RET

// At most 0 bytes of the stack.
TEXT ·text_reception_record(SB), 0, $16-24
	NO_LOCAL_POINTERS
	MOVD reception+0(FP), R0
	MOVD number+8(FP), R1
	MOVWU timestamp+16(FP), R2
	MOVWU arrival+20(FP), R3
	MOVD R30, 16(RSP)
	ADD $16, RSP
	CALL rtp_wire<>+62464(SB)
	SUB $16, RSP
	RET

// At most 0 bytes of the stack.
TEXT ·text_reception_report(SB), 0, $16-20
	NO_LOCAL_POINTERS
	MOVD reception+0(FP), R0
	MOVD report+8(FP), R1
	MOVD R30, 16(RSP)
	ADD $16, RSP
	CALL rtp_wire<>+62572(SB)
	SUB $16, RSP
	MOVW R0, ret+16(FP)
	RET

// At most 0 bytes of the stack.
TEXT ·text_write_report(SB), 0, $16-52
	NO_LOCAL_POINTERS
	MOVD report+0(FP), R0
	MOVWU ssrc+8(FP), R1
	MOVWU last_report+12(FP), R2
	MOVWU delay+16(FP), R3
	MOVD buf+24(FP), R4
	MOVD size+32(FP), R5
	MOVD n+40(FP), R6
	MOVD R30, 16(RSP)
	ADD $16, RSP
	CALL rtp_wire<>+66424(SB)
	SUB $16, RSP
	MOVW R0, ret+48(FP)
	RET

// At most 144 bytes of the stack.
TEXT ·text_wide_restarting_receive(SB), 0, $160-44
	NO_LOCAL_POINTERS
	MOVD receiver+0(FP), R0
	MOVD words+8(FP), R1
	MOVD count+16(FP), R2
	MOVHU sequence_number+24(FP), R3
	MOVD number+32(FP), R4
	MOVD R30, 160(RSP)
	ADD $160, RSP
	CALL rtp_wire<>+88632(SB)
	SUB $160, RSP
	MOVW R0, ret+40(FP)
	RET

// At most 0 bytes of the stack.
TEXT ·text_extend_u8(SB), 0, $16-24
	NO_LOCAL_POINTERS
	MOVD previous+0(FP), R0
	MOVBU number+8(FP), R1
	MOVD R30, 16(RSP)
	ADD $16, RSP
	CALL rtp_wire<>+56588(SB)
	SUB $16, RSP
	MOVD R0, ret+16(FP)
	RET

// At most 0 bytes of the stack.
TEXT ·text_extend_u15(SB), 0, $16-24
	NO_LOCAL_POINTERS
	MOVD previous+0(FP), R0
	MOVHU number+8(FP), R1
	MOVD R30, 16(RSP)
	ADD $16, RSP
	CALL rtp_wire<>+56444(SB)
	SUB $16, RSP
	MOVD R0, ret+16(FP)
	RET

// At most 0 bytes of the stack.
TEXT ·text_extend_u16(SB), 0, $16-24
	NO_LOCAL_POINTERS
	MOVD previous+0(FP), R0
	MOVHU number+8(FP), R1
	MOVD R30, 16(RSP)
	ADD $16, RSP
	CALL rtp_wire<>+56492(SB)
	SUB $16, RSP
	MOVD R0, ret+16(FP)
	RET

// At most 0 bytes of the stack.
TEXT ·text_extend_u32(SB), 0, $16-24
	NO_LOCAL_POINTERS
	MOVD previous+0(FP), R0
	MOVWU number+8(FP), R1
	MOVD R30, 16(RSP)
	ADD $16, RSP
	CALL rtp_wire<>+56540(SB)
	SUB $16, RSP
	MOVD R0, ret+16(FP)
	RET

// At most 80 bytes of the stack.
TEXT ·text_packet_parse_many(SB), 0, $96-32
	NO_LOCAL_POINTERS
	MOVD buf+0(FP), R0
	MOVD size+8(FP), R1
	MOVD datagrams+16(FP), R2
	MOVD count+24(FP), R3
	MOVD R30, 96(RSP)
	ADD $96, RSP
	CALL rtp_wire<>+90568(SB)
	SUB $96, RSP
	RET

// At most 416 bytes of the stack.
TEXT ·text_parse_many(SB), 0, $432-40
	NO_LOCAL_POINTERS
	MOVD buf+0(FP), R0
	MOVD size+8(FP), R1
	MOVD m+16(FP), R2
	MOVD datagrams+24(FP), R3
	MOVD count+32(FP), R4
	MOVD R30, 432(RSP)
	ADD $432, RSP
	CALL rtp_wire<>+73796(SB)
	SUB $432, RSP
	RET

// At most 64 bytes of the stack.
TEXT ·text_receive_many(SB), 0, $80-32
	NO_LOCAL_POINTERS
	MOVD receivers+0(FP), R0
	MOVD receiver_count+8(FP), R1
	MOVD arrivals+16(FP), R2
	MOVD count+24(FP), R3
	MOVD R30, 80(RSP)
	ADD $80, RSP
	CALL rtp_wire<>+87672(SB)
	SUB $80, RSP
	RET

// At most 2544 bytes of the stack.
TEXT ·text_make_template(SB), 0, $2584-92
	NO_LOCAL_POINTERS
	// Here stands the function, behind an instruction that never runs: by it Go knows where its frame begins.
WORD $0x10000073
WORD $0x14000286
	ADD $2608, RSP
	// 8390028: rtpw_make_template
WORD $0xf81903fe
	SUB $112, RSP
WORD $0xf9000bfd
WORD $0xa9026ffe
WORD $0xa90367fa
WORD $0xa9045ff8
WORD $0xa90557f6
WORD $0xa9064ff4
WORD $0xd111c3f0
WORD $0xf900021e
	SUB $1136, RSP
WORD $0xf9000bff
WORD $0xf100001f
WORD $0x5282000b
WORD $0xf9427bfa
WORD $0x9a9f016a
WORD $0xf100007f
WORD $0x12001ce8
WORD $0x9a9f0169
WORD $0xf10000bf
WORD $0xf9009fff
WORD $0x9a9f016c
WORD $0xf100035f
WORD $0xa9087fff
WORD $0x9a9f0178
WORD $0x7100091f
WORD $0xf9003fff
WORD $0x540003c8
WORD $0xf10040df
WORD $0x54000388
WORD $0xd37d10f0
WORD $0x8b0a0014
WORD $0x5280200a
WORD $0x72a0002a
WORD $0x8b09006e
WORD $0x52a00029
WORD $0x1ad0254a
WORD $0xf94283f7
WORD $0xf9427ff5
WORD $0x1ad02529
WORD $0x910f03e8
WORD $0x910503ed
WORD $0x910243eb
WORD $0x8b0c00af
WORD $0x8b180353
WORD $0x1200014a
WORD $0x910004d0
WORD $0x8b0c00b1
WORD $0xf1000610
WORD $0x54000260
WORD $0xf9400220
WORD $0xeb000080
WORD $0x540000a3
WORD $0xf9400623
WORD $0x91008231
WORD $0xeb00007f
WORD $0x54ffff09
WORD $0x52800120
	ADD $1136, RSP
WORD $0xa9464ff4
WORD $0xa94557f6
WORD $0xa9445ff8
WORD $0xa94367fa
WORD $0xa9426ffe
WORD $0xf9400bfd
	ADD $112, RSP
WORD $0xd65f03c0
	SUB $1248, RSP
WORD $0xf100303f
WORD $0x54000062
WORD $0x52800020
WORD $0x17fffff3
WORD $0x39c00290
WORD $0x3101061f
WORD $0x5400010c
WORD $0x92401e10
WORD $0xd37e0e16
WORD $0x910032d9
WORD $0xeb190031
WORD $0x540000a2
WORD $0x52800060
WORD $0x17ffffe9
WORD $0x52800040
WORD $0x17ffffe7
WORD $0x37200b90
WORD $0xf90033f7
WORD $0x2a1f03fd
WORD $0x2a1f03e3
WORD $0x3ccc1040
WORD $0x3ccd1041
WORD $0x910503f0
WORD $0x390503ff
WORD $0x3c8c11a0
WORD $0x3cce1040
WORD $0x3c8d11a1
WORD $0x3dc03c41
WORD $0x3c8e11a0
WORD $0x3cc81040
WORD $0x3d803da1
WORD $0x3cc91041
WORD $0x3c8811a0
WORD $0x3cca1040
WORD $0x3c8911a1
WORD $0x3ccb1041
WORD $0x3c8a11a0
WORD $0x3cc41040
WORD $0x3c8b11a1
WORD $0x3cc51041
WORD $0x3c8411a0
WORD $0x3cc61040
WORD $0x3c8511a1
WORD $0x3cc71041
WORD $0x3c8611a0
WORD $0x3cc01040
WORD $0x3c8711a1
WORD $0x3cc11041
WORD $0x3c8011a0
WORD $0x3cc21040
WORD $0x3c8111a1
WORD $0x3c8211a0
WORD $0x3cc31040
WORD $0xa9113bf0
WORD $0x3c8311a0
WORD $0x6f00e400
WORD $0xa9123fe4
WORD $0xf9009be6
WORD $0x3904e3ea
WORD $0xad0901a0
WORD $0xad0a01a0
WORD $0xad0b01a0
WORD $0xad0c01a0
WORD $0xad0d01a0
WORD $0xad0e01a0
WORD $0xad0f01a0
WORD $0xad1001a0
WORD $0xad1101a0
WORD $0xaa1f03ed
WORD $0x3904e7e9
WORD $0xad0483e0
WORD $0xad0583e0
WORD $0xad0683e0
WORD $0x3d803fe0
WORD $0x3d801d60
WORD $0xf9012fff
WORD $0xb40005a6
WORD $0x8b05018e
WORD $0x910061ce
WORD $0x384205cf
WORD $0x910983f0
WORD $0x386f6a11
WORD $0x350030f1
WORD $0x110005b1
WORD $0x910005ad
WORD $0x382f6a11
WORD $0xeb0d00df
WORD $0x54ffff01
WORD $0x8b05018c
WORD $0xaa1f03ed
WORD $0xaa0603ef
WORD $0x9100618e
WORD $0x5280002c
WORD $0xf85f01d0
WORD $0xf103fe1f
WORD $0x54002fe8
WORD $0x384205d1
WORD $0x34002fb1
WORD $0xd1000600
WORD $0x71003e3f
WORD $0x8b1001ad
WORD $0xfa503802
WORD $0x910009ad
WORD $0x1a9f27f1
WORD $0xf10005ef
WORD $0xa0c022c
WORD $0x54fffe61
WORD $0x1400000f
WORD $0xf1001220
WORD $0x54000062
WORD $0x52800080
WORD $0x17ffff87
WORD $0x8b190291
WORD $0x39400a30
WORD $0x39400e23
WORD $0xd376d610
WORD $0xaa030a10
WORD $0xeb10001f
WORD $0x54000782
WORD $0x528000c0
WORD $0x17ffff7e
WORD $0x5280002c
WORD $0x910443ee
WORD $0x910983ef
WORD $0x390f63ec
WORD $0x5280002c
WORD $0xf901e3ee
WORD $0xf901e7ef
WORD $0xf901ebed
WORD $0xb801911f
WORD $0xb903dfff
WORD $0xf901dfff
WORD $0xf901dbff
WORD $0xf901cfff
WORD $0xf90227ff
WORD $0xf9021fff
WORD $0xf90223ff
WORD $0xf9020bec
WORD $0x3d801d60
WORD $0xad0503e0
WORD $0xad0603e0
WORD $0xad0703e0
WORD $0x3d8027e0
WORD $0x3400223d
WORD $0x110042ce
WORD $0xcb0e032b
WORD $0xf104017f
WORD $0x540021a8
WORD $0x321e3fec
WORD $0xd37ffb2d
WORD $0x910f03ef
WORD $0xeb0c02bf
WORD $0x3cc081e0
WORD $0xf84181eb
WORD $0x9a8c32b0
WORD $0x91000dac
WORD $0xf90023e1
WORD $0xeb0c020c
WORD $0x3c860100
WORD $0x9a8c33ec
WORD $0xf9021beb
WORD $0x54001f43
WORD $0xf94217ed
WORD $0xeb0d019f
WORD $0x54001ee3
WORD $0x3cc60100
WORD $0x2a0303ed
WORD $0xb40002e6
WORD $0x7200017f
WORD $0x12001cec
WORD $0x1a9f146d
WORD $0x3400026c
WORD $0x7100099f
WORD $0x54000200
WORD $0x2a0d03ec
WORD $0x2a0903ed
WORD $0x360001cc
WORD $0x140000ea
WORD $0x79400231
WORD $0x8b100330
WORD $0xf90033f7
WORD $0x91001219
WORD $0x12146e20
WORD $0x7100401f
WORD $0x529bd7c0
WORD $0x1a9f17e3
WORD $0x6b00023f
WORD $0x1a9f147d
WORD $0x17ffff58
WORD $0x2a0903ed
WORD $0xa9051bf6
WORD $0x910443e9
WORD $0x8b180340
WORD $0x3c898100
WORD $0x910243e8
WORD $0x110042c2
WORD $0x8b0e0285
WORD $0xcb0e0326
WORD $0x911143e7
WORD $0xaa1003e1
WORD $0x2a0d03e4
WORD $0xb9048fed
WORD $0xb90037fd
WORD $0xf9022be9
WORD $0xf90237eb
WORD $0xf9001ff9
WORD $0xf90027ee
WORD $0xb9048be3
WORD $0xf9000be8
WORD $0xf9003bf0
	CALL rtp_wire<>+36416(SB)
WORD $0xf9403bf0
WORD $0xb9448fef
WORD $0x360017e0
WORD $0xf9409bfd
WORD $0xb40010bd
WORD $0xf9408ffb
WORD $0xf94097f7
WORD $0x8b1a0308
WORD $0xaa1f03f6
WORD $0xf90037e8
WORD $0x91004108
WORD $0x91004369
WORD $0xa90227e8
WORD $0x14000008
WORD $0x39400108
WORD $0x38396a68
WORD $0x8b1a0321
WORD $0x29006b19
WORD $0x910006d6
WORD $0xeb1d02df
WORD $0x54000ea0
WORD $0x910243e8
WORD $0x8b160d18
WORD $0xb9400308
WORD $0x35ffff48
WORD $0x8b1616e8
WORD $0xf940051a
WORD $0x8b1a0029
WORD $0x91000929
WORD $0xeb09021f
WORD $0x54001463
WORD $0xf9400109
WORD $0x39406108
WORD $0x72001dff
WORD $0x540000c0
WORD $0x8b01026a
WORD $0x39000148
WORD $0x3900055a
WORD $0x5280004a
WORD $0x14000007
WORD $0x53047d0a
WORD $0x2a081148
WORD $0x5280002a
WORD $0xb080348
WORD $0x51000508
WORD $0x38216a68
WORD $0x8b090368
WORD $0x8b010159
WORD $0xb40002ba
WORD $0xf100075f
WORD $0x54fffb80
WORD $0xf1000b5f
WORD $0x540000e8
WORD $0x39400109
WORD $0x8b19026a
WORD $0x39000149
WORD $0x39400508
WORD $0x39000548
WORD $0x17ffffd6
WORD $0xf1000f5f
WORD $0x54000121
WORD $0x39400109
WORD $0x8b19026a
WORD $0x39000149
WORD $0x39400509
WORD $0x39000549
WORD $0x39400908
WORD $0x39000948
WORD $0x17ffffcc
WORD $0x8b19026b
WORD $0xcb08016b
WORD $0xeb1a017f
WORD $0x540002e2
WORD $0xf100235f
WORD $0x54000103
WORD $0xf94037e8
WORD $0x8b010108
WORD $0x8b0a0108
WORD $0xcb1b0108
WORD $0xcb090108
WORD $0xf100811f
WORD $0x540002a2
WORD $0xaa1f03e8
WORD $0x8b01010b
WORD $0x8b090109
WORD $0xcb080348
WORD $0x8b0a016a
WORD $0xf94037eb
WORD $0x8b090369
WORD $0x8b0a016a
WORD $0x3840152b
WORD $0xf1000508
WORD $0x3800154b
WORD $0x54ffffa1
WORD $0x17ffffb2
WORD $0x8b190260
WORD $0xaa0803e1
WORD $0xaa1a03e2
	CALL rtp_wire<>+106704(SB)
WORD $0xf9403bf0
WORD $0xb9448fef
WORD $0x17ffffab
WORD $0xf100835f
WORD $0x54000062
WORD $0xaa1f03e8
WORD $0x14000010
WORD $0xa94233ed
WORD $0x927d074b
WORD $0x927beb48
WORD $0x927beb4e
WORD $0x8b09018c
WORD $0x8b1901ad
WORD $0xad7f8580
WORD $0xf10081ce
WORD $0x9100818c
WORD $0xad3f85a0
WORD $0x910081ad
WORD $0x54ffff61
WORD $0xeb08035f
WORD $0x54fff320
WORD $0xb4fffb6b
WORD $0xaa0803eb
WORD $0x927df348
WORD $0x8b0b002c
WORD $0x8b09016d
WORD $0xcb08016b
WORD $0x8b0a018e
WORD $0x8b0d036c
WORD $0xf94037ed
WORD $0x8b0e01ad
WORD $0xfc408580
WORD $0xb100216b
WORD $0xfc0085a0
WORD $0x54ffffa1
WORD $0xeb08035f
WORD $0x54fff120
WORD $0x17ffffcb
WORD $0x91000c28
WORD $0x927ef518
WORD $0xeb18021f
WORD $0x540006a3
WORD $0xa944abf6
WORD $0xeb010308
WORD $0xf94033f7
WORD $0x54000180
WORD $0xf100091f
WORD $0x540000a0
WORD $0xf100051f
WORD $0x540000a1
WORD $0x38216a7f
WORD $0x14000006
WORD $0x78216a7f
WORD $0x14000004
WORD $0x8b010268
WORD $0x3900091f
WORD $0x7900011f
WORD $0x7100855f
WORD $0xcb160315
WORD $0x54000123
WORD $0xaa1303e0
WORD $0xaa1403e1
WORD $0xaa1603e2
	CALL rtp_wire<>+28308(SB)
WORD $0xb9448fef
WORD $0xf9402fe8
WORD $0xb9448be9
WORD $0x1400000b
WORD $0x3dc00280
WORD $0xb9448be9
WORD $0x7100455f
WORD $0x3d800260
WORD $0x54000063
WORD $0x3dc00680
WORD $0x3d800660
WORD $0xf9402fe8
WORD $0x3cea6a80
WORD $0x3caa6a60
WORD $0x6b2f013f
WORD $0x540000e0
WORD $0x72001dff
WORD $0x52800209
WORD $0x1284282a
WORD $0x1a890149
WORD $0x8b16026a
WORD $0x781fc149
WORD $0x531a66aa
WORD $0x8b16026c
WORD $0xaa1f03e9
WORD $0x2a1f03eb
WORD $0x330a46aa
WORD $0x781fe18a
WORD $0x5280002a
WORD $0x1400005f
WORD $0x3944e3ea
WORD $0x3944e7e9
WORD $0x910f03ef
WORD $0xf9402fe6
WORD $0xb9448be3
WORD $0xf9401ff9
WORD $0xb94037fd
WORD $0x7100055f
WORD $0x54000301
WORD $0x72001d3f
WORD $0x540002c1
WORD $0xf94023e1
WORD $0xaa0603f6
WORD $0xf901c7e1
WORD $0x910e83e0
WORD $0x910e03e1
WORD $0x390e67e3
WORD $0x910f03e2
WORD $0x910243e5
WORD $0xaa1303e3
WORD $0xaa1503e4
WORD $0xf901c3f4
WORD $0xf901cbf9
WORD $0x390e63fd
	CALL rtp_wire<>+40468(SB)
WORD $0x394e83eb
WORD $0xf941d7f8
WORD $0xaa1603e8
WORD $0x394ec3ea
WORD $0x394ec7ef
WORD $0xf941dfe9
WORD $0x1400003e
WORD $0x910443e8
WORD $0xf94023f7
WORD $0x3cc081e0
WORD $0xf9020fe8
WORD $0xf84181e8
WORD $0xaa0603f6
WORD $0x391047e3
WORD $0x911063e9
WORD $0x9110e3e0
WORD $0x910fe3e1
WORD $0x910f83e2
WORD $0x2a0303f8
WORD $0x911063e3
WORD $0x910243e6
WORD $0xaa1303e4
WORD $0xaa1503e5
WORD $0xf901fff4
WORD $0xf90203f7
WORD $0xf90207f9
WORD $0xf901fbff
WORD $0xf901f3ff
WORD $0xf901f7ff
WORD $0x3c808120
WORD $0xf8018128
	CALL rtp_wire<>+38864(SB)
WORD $0x3950e3e8
WORD $0x2a1803e3
WORD $0xaa1703e1
WORD $0x7100051f
WORD $0x54fffa01
WORD $0xf94223f8
WORD $0x395123ea
WORD $0xaa1f03e9
WORD $0x395127ef
WORD $0x2a1f03eb
WORD $0xaa1603e8
WORD $0x14000019
WORD $0xaa1f03e9
WORD $0x2a1f03ef
WORD $0x2a1f03ea
WORD $0x52800038
WORD $0x14000059
WORD $0xf90127e1
WORD $0x910d83e0
WORD $0x910903e1
WORD $0x390967e3
WORD $0x910443e2
WORD $0x910243e5
WORD $0xaa1303e3
WORD $0xaa1503e4
WORD $0xf90123f4
WORD $0xf9012bf9
WORD $0xaa0603f3
WORD $0x390963fd
	CALL rtp_wire<>+35540(SB)
WORD $0xf941b7f8
WORD $0x394dc3ea
WORD $0xaa1303e8
WORD $0x394dc7ef
WORD $0xf941bfe9
WORD $0x394d83eb
WORD $0xf94033f7
WORD $0x3500088b
WORD $0x6f00e400
WORD $0xaa1703eb
WORD $0x3c804d60
WORD $0xaa0b03e9
WORD $0xad010160
WORD $0x3d800560
WORD $0xf8043d3f
WORD $0xf804b17f
WORD $0xb4000308
WORD $0xf100211f
WORD $0x54000123
WORD $0x8b0802ea
WORD $0x91011d4a
WORD $0xeb0a017f
WORD $0x54000302
WORD $0x8b080aea
WORD $0x9100114a
WORD $0xeb0a013f
WORD $0x54000282
WORD $0x2a1f03eb
WORD $0xaa1f03ea
WORD $0x910243ec
WORD $0x8b0a092d
WORD $0xf86a798c
WORD $0xd360fd8e
WORD $0xb81bd1ac
WORD $0x382a692e
WORD $0x9100054a
WORD $0xeb0a011f
WORD $0xb0e016b
WORD $0x54fffee1
WORD $0x14000002
WORD $0x2a1f03eb
WORD $0x2a1f03e0
WORD $0xb90002f8
WORD $0x79008aeb
WORD $0x39011ae8
WORD $0x17fffdde
WORD $0x927d050a
WORD $0x910243ec
WORD $0xaa0903ed
WORD $0x927d050e
WORD $0xad410582
	MOVD $rtp_wire_constants<>+432(SB), R15
WORD $0xacc20d84
WORD $0x3dc001e7
WORD $0xf10021ce
WORD $0x4e815845
WORD $0x6f600433
WORD $0x4e811841
WORD $0x4e835886
WORD $0x6f600452
WORD $0x4e831882
WORD $0x6f600471
WORD $0x6f600490
WORD $0x4e4518c5
WORD $0xac810562
WORD $0x4e076206
WORD $0x4e658400
WORD $0xfc0085a6
WORD $0x54fffda1
WORD $0x4e71b800
WORD $0xeb0a011f
WORD $0x1e26000b
WORD $0x54fffa81
WORD $0x17ffffdf
WORD $0x92401f08
WORD $0x9101e3e0
WORD $0x390203ea
WORD $0xf9003fe8
WORD $0x390207ef
WORD $0xf90047e9
	CALL rtp_wire<>+25732(SB)
WORD $0x17fffdb9
	ADD $1248, RSP
	// Nor does this one.
	SUB $2608, RSP
	MOVD datagram+0(FP), R0
	MOVD n+8(FP), R1
	MOVD ids+16(FP), R2
	MOVD data+24(FP), R3
	MOVD data_len+32(FP), R4
	MOVD elements+40(FP), R5
	MOVD count+48(FP), R6
	MOVBU allowed+56(FP), R7
	MOVD buf+64(FP), R9
	MOVD size+72(FP), R10
	MOVD made+80(FP), R11
	MOVD R30, 2560(RSP)
	ADD $2560, RSP
	MOVD R9, 16(RSP)
	MOVD R10, 24(RSP)
	MOVD R11, 32(RSP)
	CALL (R19)
	SUB $2560, RSP
	MOVW R0, ret+88(FP)
	RET

// At most 1488 bytes of the stack.
TEXT ·text_prepare_group(SB), 0, $1504-44
	NO_LOCAL_POINTERS
	// Here stands the function, behind an instruction that never runs: by it Go knows where its frame begins.
WORD $0x10000073
WORD $0x14000166
	ADD $1520, RSP
	// 8388608: rtpw_prepare_group
WORD $0xf81b03fe
	SUB $80, RSP
WORD $0xf9000bfd
WORD $0xa9025ffe
WORD $0xa90357f6
WORD $0xa9044ff4
WORD $0xd11603f0
WORD $0xf900021e
	SUB $1408, RSP
WORD $0xf9000bff
WORD $0x52820008
WORD $0xf100003f
WORD $0xf90013ff
WORD $0x9a9f010b
WORD $0xf100405f
WORD $0x52800128
WORD $0x54002728
WORD $0x12001c69
WORD $0x7100093f
WORD $0x540026c8
WORD $0x8b01016c
WORD $0x911183e9
WORD $0x9108e3e8
WORD $0x9100c3ea
WORD $0x9100218d
WORD $0x9100044c
WORD $0xf100058c
WORD $0x540000c0
WORD $0xf84205ae
WORD $0xf10401df
WORD $0x54ffff83
WORD $0x52800128
WORD $0x14000129
WORD $0x6f00e400
WORD $0x7908bbff
WORD $0xad010120
WORD $0xad020120
WORD $0xad030120
WORD $0xad040120
WORD $0xad050120
WORD $0xad060120
WORD $0xad070120
WORD $0xad080120
WORD $0xb4000b62
WORD $0x8b01016d
WORD $0xaa1f03ec
WORD $0x910061ad
WORD $0x384205ae
WORD $0x911203ef
WORD $0x386e69f0
WORD $0x35002410
WORD $0x11000590
WORD $0x9100058c
WORD $0x382e69f0
WORD $0xeb0c005f
WORD $0x54ffff01
WORD $0x8b01016c
WORD $0xaa0203ed
WORD $0x9100618c
WORD $0x3940018e
WORD $0x3400232e
WORD $0xf85f018e
WORD $0xf103fddf
WORD $0x54002308
WORD $0xf10005ad
WORD $0x9100818c
WORD $0x54ffff21
WORD $0xaa1f03ec
WORD $0xf100245f
WORD $0xf9023fff
WORD $0xf9023bff
WORD $0xf90237ff
WORD $0xf90233ff
WORD $0x540005a3
WORD $0xf240084c
WORD $0x5280010d
WORD $0x911183ee
WORD $0x9a8c01ac
WORD $0x8b01016d
WORD $0x9111c3ef
WORD $0xcb0c004c
WORD $0x910261ad
WORD $0xaa0c03f0
WORD $0x3c5801a0
WORD $0xd10181b1
WORD $0x3cd901a5
WORD $0x3cd701a6
WORD $0x3dc00da4
WORD $0x910141a5
WORD $0xd400620
WORD $0xd10101b1
WORD $0x3cdd01b0
WORD $0x3cdb01b1
WORD $0x3dc005a7
WORD $0x4ec538c1
WORD $0x3cdf01b2
	MOVD $rtp_wire_constants<>+432(SB), R6
WORD $0xf1002210
WORD $0xd400a20
WORD $0xd10081b1
WORD $0x4ed03a22
WORD $0x4ec73a43
WORD $0x3dc000c5
WORD $0x4d4084a4
WORD $0xd400e20
WORD $0x910081b1
WORD $0x4e056021
WORD $0xd4011a0
WORD $0xd401620
WORD $0x910101b1
WORD $0xfc0085c1
WORD $0xd401a20
WORD $0x910181b1
WORD $0x910401ad
WORD $0xd401e20
WORD $0xfc0085e0
WORD $0x54fffbc1
WORD $0x8b0c156d
WORD $0x911183ee
WORD $0x9111c3ef
WORD $0xcb0c004b
WORD $0x8b0101b0
WORD $0x8b0c01cd
WORD $0x8b0c01ec
WORD $0x9100620e
WORD $0x394001cf
WORD $0xf85f01d0
WORD $0xf100056b
WORD $0x910081ce
WORD $0x3800158f
WORD $0x380015b0
WORD $0x54ffff41
WORD $0x14000005
WORD $0xf9023fff
WORD $0xf9023bff
WORD $0xf90237ff
WORD $0xf90233ff
WORD $0x3ccc1000
WORD $0x3ccd1001
WORD $0x910c27eb
WORD $0x3cce1002
WORD $0x2a0303f3
WORD $0x2a1f03f4
WORD $0x3c8c1100
WORD $0x3cc81000
WORD $0x3c8d1101
WORD $0x3cc91001
WORD $0x3c881100
WORD $0x3cca1000
WORD $0x3c891101
WORD $0x3ccb1001
WORD $0x3c8a1100
WORD $0x3cc41000
WORD $0x3c8b1101
WORD $0x3cc51001
WORD $0x3c841100
WORD $0x3cc61000
WORD $0x3c851101
WORD $0x3cc71001
WORD $0x3c861100
WORD $0x3cc01000
WORD $0x3c871101
WORD $0x3cc11001
WORD $0x3c801100
WORD $0x3cc21000
WORD $0x3c811101
WORD $0x3cc31001
WORD $0x3c821100
WORD $0x3c831101
WORD $0xad478520
WORD $0x3c8e1102
WORD $0x3dc04522
WORD $0x7908b3ff
WORD $0x3c8ff160
WORD $0xad458123
WORD $0x910c67eb
WORD $0x39116be2
WORD $0x3c8ff161
WORD $0xad468524
WORD $0x910b27eb
WORD $0x39116fe3
WORD $0x3c8ff163
WORD $0x910b67eb
WORD $0x3c8ff160
WORD $0x910be7eb
WORD $0x3c8ff161
WORD $0xad438520
WORD $0x910ba7eb
WORD $0x3c8ff164
WORD $0xad448d24
WORD $0x910a27eb
WORD $0x3c8ff160
WORD $0x910a67eb
WORD $0x3ccf0000
WORD $0x3c8ff161
WORD $0x910ae7eb
WORD $0x3c8ff163
WORD $0x910aa7eb
WORD $0xad410d21
WORD $0x3c8ff164
WORD $0x9108a7eb
WORD $0x3c8ff160
WORD $0x9108e7eb
WORD $0xad421120
WORD $0x3c8ff161
WORD $0x910927eb
WORD $0x3dc01921
WORD $0x3c8ff163
WORD $0x910967eb
WORD $0x3c8ff160
WORD $0x9109e7eb
WORD $0x3c8ff161
WORD $0x9109a7eb
WORD $0xad400121
WORD $0x3c8ff164
WORD $0x910ca7eb
WORD $0x3c8ff162
WORD $0x910ce7eb
WORD $0x3c8ff160
WORD $0x910d27eb
WORD $0x3c8ff161
WORD $0xb4000302
WORD $0x9108e3ed
WORD $0xaa1f03ee
WORD $0x52800035
WORD $0x910401ab
WORD $0x910801ac
WORD $0x910841ad
WORD $0x386e6990
WORD $0x910005d1
WORD $0x3870496f
WORD $0xeb0f023f
WORD $0x54000f01
WORD $0x386e69ae
WORD $0x51000610
WORD $0x71003a1f
WORD $0x510005d1
WORD $0xb0e0294
WORD $0xaa0f03ee
WORD $0x7a503a22
WORD $0x1a9f27f0
WORD $0xeb0f005f
WORD $0xa150215
WORD $0x54fffe21
WORD $0x14000002
WORD $0x52800035
WORD $0x3ccce000
WORD $0x3ccde001
WORD $0x9100c3eb
WORD $0x3ccee002
WORD $0x3cc7e003
WORD $0x9103896c
WORD $0xad058540
WORD $0x3cc8e000
WORD $0x9100c3e1
WORD $0x3cc9e001
WORD $0x3d803542
WORD $0xaa0203f6
WORD $0x3ccae002
WORD $0x7941fc0d
WORD $0x52804042
WORD $0xad038540
WORD $0x3ccbe000
WORD $0xaa0403f7
WORD $0x3cc4e001
WORD $0x790223ed
WORD $0xad048142
WORD $0x3cc5e000
WORD $0x3cc3e002
WORD $0xad0303e1
WORD $0x3cc6e001
WORD $0x3cc1e000
WORD $0x3d8017e2
WORD $0xad040fe1
WORD $0x3cc2e001
WORD $0xad0187e0
WORD $0xad470520
WORD $0xad060580
WORD $0xad480122
WORD $0xad070182
WORD $0xad450121
WORD $0xad040181
WORD $0xad460122
WORD $0xad050182
WORD $0xad430121
WORD $0xad020181
WORD $0xad440122
WORD $0xad030182
WORD $0xad420121
WORD $0xad010181
WORD $0xad410122
WORD $0x9107896c
WORD $0x3c8f2140
WORD $0xad400520
WORD $0x3c8e2142
WORD $0xb840100a
WORD $0x9107c969
WORD $0x7940280b
WORD $0x3d800120
WORD $0x38405009
WORD $0xb90483ea
WORD $0xb940100a
WORD $0x91007880
WORD $0x391213e9
WORD $0xb9023bea
WORD $0xb94483ea
WORD $0x39001489
WORD $0x79448fe9
WORD $0x79047beb
WORD $0xf840610b
WORD $0xf8416108
WORD $0xb800108a
WORD $0xb9423bea
WORD $0x79001c89
WORD $0x79447be9
WORD $0x3d800181
WORD $0x3900009f
WORD $0xf800608b
WORD $0xb900108a
WORD $0x79002889
WORD $0xf8016088
	CALL rtp_wire<>+107008(SB)
WORD $0x2a1f03e8
WORD $0x790442f4
WORD $0x39088af6
WORD $0x39088ef3
WORD $0x390892f5
WORD $0x390896ff
WORD $0x2a0803e0
	ADD $1408, RSP
WORD $0xa9444ff4
WORD $0xa94357f6
WORD $0xa9425ffe
WORD $0xf9400bfd
	ADD $80, RSP
WORD $0xd65f03c0
	SUB $1488, RSP
WORD $0x2a1f03e8
WORD $0x52800029
WORD $0x14000005
WORD $0x52800028
WORD $0x14000002
WORD $0x52800048
WORD $0x52800069
WORD $0x910063e0
WORD $0xf9000fe9
WORD $0x390083e8
WORD $0x390087ff
WORD $0xf90017ff
	CALL rtp_wire<>+25732(SB)
WORD $0x2a0003e8
WORD $0x17ffffe9
WORD $0xd4200020
	ADD $1488, RSP
	// Nor does this one.
	SUB $1520, RSP
	MOVD ids+0(FP), R0
	MOVD elements+8(FP), R1
	MOVD count+16(FP), R2
	MOVBU allowed+24(FP), R3
	MOVD group+32(FP), R4
	MOVD R30, 1504(RSP)
	ADD $1504, RSP
	CALL (R19)
	SUB $1504, RSP
	MOVW R0, ret+40(FP)
	RET

// At most 1776 bytes of the stack.
TEXT ·text_make_from_group(SB), 0, $1792-52
	NO_LOCAL_POINTERS
	MOVD group+0(FP), R0
	MOVD datagram+8(FP), R1
	MOVD n+16(FP), R2
	MOVD buf+24(FP), R3
	MOVD size+32(FP), R4
	MOVD made+40(FP), R5
	MOVD R30, 1792(RSP)
	ADD $1792, RSP
	CALL rtp_wire<>+84412(SB)
	SUB $1792, RSP
	MOVW R0, ret+48(FP)
	RET

// At most 336 bytes of the stack.
TEXT ·text_write_headers(SB), 0, $360-76
	NO_LOCAL_POINTERS
	MOVD made+0(FP), R0
	MOVD header+8(FP), R1
	MOVD header_size+16(FP), R2
	MOVD data+24(FP), R3
	MOVD data_len+32(FP), R4
	MOVD receivers+40(FP), R5
	MOVD count+48(FP), R6
	MOVD buf+56(FP), R7
	MOVD size+64(FP), R9
	MOVD R30, 352(RSP)
	ADD $352, RSP
	MOVD R9, 16(RSP)
	CALL rtp_wire<>+104656(SB)
	SUB $352, RSP
	MOVW R0, ret+72(FP)
	RET

// At most 0 bytes of the stack.
TEXT ·text_read_fixed_part(SB), 0, $16-36
	NO_LOCAL_POINTERS
	MOVD datagram+0(FP), R0
	MOVD n+8(FP), R1
	MOVD fixed+16(FP), R2
	MOVD layout+24(FP), R3
	MOVD R30, 16(RSP)
	ADD $16, RSP
	CALL rtp_wire<>+91912(SB)
	SUB $16, RSP
	MOVW R0, ret+32(FP)
	RET

// At most 0 bytes of the stack.
TEXT ·text_write_fixed_part(SB), 0, $16-28
	NO_LOCAL_POINTERS
	MOVD fixed+0(FP), R0
	MOVD buf+8(FP), R1
	MOVD size+16(FP), R2
	MOVD R30, 16(RSP)
	ADD $16, RSP
	CALL rtp_wire<>+65376(SB)
	SUB $16, RSP
	MOVW R0, ret+24(FP)
	RET

// At most 112 bytes of the stack.
TEXT ·text_write_data_elements(SB), 0, $128-60
	NO_LOCAL_POINTERS
	MOVD fixed+0(FP), R0
	MOVD elements+8(FP), R1
	MOVD count+16(FP), R2
	MOVBU form+24(FP), R3
	MOVD buf+32(FP), R4
	MOVD size+40(FP), R5
	MOVD n+48(FP), R6
	MOVD R30, 128(RSP)
	ADD $128, RSP
	CALL rtp_wire<>+63208(SB)
	SUB $128, RSP
	MOVW R0, ret+56(FP)
	RET

// rtpw_packet_parse, then rtpw_values_read: it takes at most 352 bytes of the stack.
TEXT ·text_packet_read(SB), 0, $368-44
	NO_LOCAL_POINTERS
	MOVD datagram+0(FP), R19
	MOVD m+16(FP), R20
	MOVD packet+24(FP), R21
	MOVD values+32(FP), R22
	MOVD n+8(FP), R23
	MOVD R30, 368(RSP)
	ADD $368, RSP
	MOVD R19, R0
	MOVD R23, R1
	MOVD R21, R2
	CALL rtp_wire<>+90120(SB)
	CBNZW R0, done
	MOVBU 55(R21), R2
	SUBW $1, R2, R3
	CMPW $1, R3
	BHI done
	MOVD 24(R21), R0
	ADD R19, R0
	MOVD 32(R21), R1
	MOVD R20, R3
	MOVD R22, R4
	CALL rtp_wire<>+62828(SB)
done:
	SUB $368, RSP
	MOVW R0, ret+40(FP)
	RET

// rtpw_is_rtcp, then rtpw_packet_parse, then rtpw_values_read: it takes at most 352 bytes of the stack.
TEXT ·text_packet_read_muxed(SB), 0, $368-44
	NO_LOCAL_POINTERS
	MOVD datagram+0(FP), R19
	MOVD m+16(FP), R20
	MOVD packet+24(FP), R21
	MOVD values+32(FP), R22
	MOVD n+8(FP), R23
	MOVD R30, 368(RSP)
	ADD $368, RSP
	MOVD R19, R0
	MOVD R23, R1
	CALL rtp_wire<>+56760(SB)
	ANDW $255, R0, R3
	MOVD $17, R0
	CBNZW R3, done
	MOVD R19, R0
	MOVD R23, R1
	MOVD R21, R2
	CALL rtp_wire<>+90120(SB)
	CBNZW R0, done
	MOVBU 55(R21), R2
	SUBW $1, R2, R3
	CMPW $1, R3
	BHI done
	MOVD 24(R21), R0
	ADD R19, R0
	MOVD 32(R21), R1
	MOVD R20, R3
	MOVD R22, R4
	CALL rtp_wire<>+62828(SB)
done:
	SUB $368, RSP
	MOVW R0, ret+40(FP)
	RET

// The library, and its constants.
TEXT rtp_wire<>(SB), NOSPLIT|NOFRAME, $0-0
	NO_LOCAL_POINTERS
	// 0: rtp_values::value::lengths::rid_len::<#7ba4d078ccf006bf>
DWORD $0x340002e839420408
DWORD $0x3400030839418408
DWORD $0x3400032839418808
DWORD $0x3400034839418c08
DWORD $0x3400036839419008
DWORD $0x3400038839419408
DWORD $0x340003a839419808
DWORD $0x340003c839419c08
DWORD $0x340003e83941a008
DWORD $0x528000203941a408
DWORD $0x528001087100011f
DWORD $0xd65f03c09a880501
DWORD $0x2a1f03e0aa1f03e1
DWORD $0xaa1f03e1d65f03c0
DWORD $0xd65f03c052800020
DWORD $0x5280002052800021
DWORD $0x52800020d65f03c0
DWORD $0xd65f03c052800041
DWORD $0x5280006152800020
DWORD $0x52800020d65f03c0
DWORD $0xd65f03c052800081
DWORD $0x528000a152800020
DWORD $0x52800020d65f03c0
DWORD $0xd65f03c0528000c1
DWORD $0x528000e152800020
WORD $0xd65f03c0
	// 204: rtp_values::value::lengths::repaired_rid_len::<#7ba4d078ccf006bf>
WORD $0x39420808
DWORD $0x3941a808340002e8
DWORD $0x3941ac0834000308
DWORD $0x3941b00834000328
DWORD $0x3941b40834000348
DWORD $0x3941b80834000368
DWORD $0x3941bc0834000388
DWORD $0x3941c008340003a8
DWORD $0x3941c408340003c8
DWORD $0x3941c808340003e8
DWORD $0x7100011f52800020
DWORD $0x9a88050152800108
DWORD $0xaa1f03e1d65f03c0
DWORD $0xd65f03c02a1f03e0
DWORD $0x52800020aa1f03e1
DWORD $0x52800021d65f03c0
DWORD $0xd65f03c052800020
DWORD $0x5280004152800020
DWORD $0x52800020d65f03c0
DWORD $0xd65f03c052800061
DWORD $0x5280008152800020
DWORD $0x52800020d65f03c0
DWORD $0xd65f03c0528000a1
DWORD $0x528000c152800020
DWORD $0x52800020d65f03c0
DWORD $0xd65f03c0528000e1
	// 408: rtp_values::value::lengths::mid_len::<#7ba4d078ccf006bf>
DWORD $0x340004e839420008
DWORD $0x3400050839414008
DWORD $0x3400052839414408
DWORD $0x3400054839414808
DWORD $0x3400056839414c08
DWORD $0x3400058839415008
DWORD $0x340005a839415408
DWORD $0x340005c839415808
DWORD $0x340005e839415c08
DWORD $0x3400060839416008
DWORD $0x3400062839416408
DWORD $0x3400064839416808
DWORD $0x3400066839416c08
DWORD $0x3400068839417008
DWORD $0x340006a839417408
DWORD $0x340006c839417808
DWORD $0x340006e839417c08
DWORD $0x5280002039418008
DWORD $0x528002087100011f
DWORD $0xd65f03c09a880501
DWORD $0x2a1f03e0aa1f03e1
DWORD $0xaa1f03e1d65f03c0
DWORD $0xd65f03c052800020
DWORD $0x5280002052800021
DWORD $0x52800020d65f03c0
DWORD $0xd65f03c052800041
DWORD $0x5280006152800020
DWORD $0x52800020d65f03c0
DWORD $0xd65f03c052800081
DWORD $0x528000a152800020
DWORD $0x52800020d65f03c0
DWORD $0xd65f03c0528000c1
DWORD $0x528000e152800020
DWORD $0x52800020d65f03c0
DWORD $0xd65f03c052800101
DWORD $0x5280012152800020
DWORD $0x52800020d65f03c0
DWORD $0xd65f03c052800141
DWORD $0x5280016152800020
DWORD $0x52800020d65f03c0
DWORD $0xd65f03c052800181
DWORD $0x528001a152800020
DWORD $0x52800020d65f03c0
DWORD $0xd65f03c0528001c1
DWORD $0x528001e152800020
WORD $0xd65f03c0
	// 772: rtp_values::value::abs_capture_time::write::<#7ba4d078ccf006bf>
WORD $0x3941d028
DWORD $0x3941d42934000168
DWORD $0x34000169f9400428
DWORD $0xdac00d08f9400829
DWORD $0xdac00d2952800201
DWORD $0x52800020a9002408
DWORD $0xaa1f03e1d65f03c0
DWORD $0xd65f03c02a1f03e0
DWORD $0x52800101dac00d08
DWORD $0x52800020f9000008
WORD $0xd65f03c0
	// 852: rtp_values::value::playout_delay::write::<#7ba4d078ccf006bf>
WORD $0x3941f428
DWORD $0xb9402028340003c8
DWORD $0x3941f82934000388
DWORD $0xb940302934000349
DWORD $0xf940142a34000309
DWORD $0x52800c8ef9400c2c
DWORD $0x9ac9094b52800061
DWORD $0x9b09a96a9ac8098d
DWORD $0x9ac909499b0e7d4a
DWORD $0x9b0e7d4a9b08b1aa
DWORD $0x9ac809481b0e2569
DWORD $0x1b0e21a812002d29
DWORD $0x5ac0092833142d09
DWORD $0x53087d0853187d09
DWORD $0x7900000839000809
DWORD $0xd65f03c052800020
DWORD $0x2a1f03e0aa1f03e1
WORD $0xd65f03c0
	// 988: rtp_values::value::video_timing::write::<#7ba4d078ccf006bf>
WORD $0x3941fc28
DWORD $0xfc444020340001c8
DWORD $0x394130286f00d4e1
DWORD $0x528001a1b800901f
DWORD $0x390000080e201800
DWORD $0x6e6144004e403800
DWORD $0xfc0010000e212800
DWORD $0xd65f03c052800020
DWORD $0x2a1f03e0aa1f03e1
WORD $0xd65f03c0
	// 1060: rtp_values::value::stream_id::write::<#7ba4d078ccf006bf>
WORD $0xf81e03fe
	SUB $32, RSP
WORD $0xa9014ffe
DWORD $0x340002e939420429
DWORD $0x38461c29aa0103e8
DWORD $0x3941890a34000369
DWORD $0x39418d0a3400044a
DWORD $0x3941910a3400050a
DWORD $0x394195093400060a
DWORD $0x3941990934000749
DWORD $0x39419d0934000749
DWORD $0x3941a10934000749
DWORD $0x3941a50834000749
DWORD $0x528001087100011f
DWORD $0x140000369a880513
DWORD $0x2a1f03e0aa1f03f3
DWORD $0xa9414ffeaa1303e1
	ADD $32, RSP
WORD $0xd65f03c0
	SUB $32, RSP
WORD $0xaa1f03f3
DWORD $0x94006707aa1303e2
DWORD $0xaa1303e152800020
WORD $0xa9414ffe
	ADD $32, RSP
WORD $0xd65f03c0
	SUB $32, RSP
DWORD $0x5280003339000009
DWORD $0xaa1303e152800020
WORD $0xa9414ffe
	ADD $32, RSP
WORD $0xd65f03c0
	SUB $32, RSP
DWORD $0x5280005339000009
DWORD $0x3900040839418908
DWORD $0xaa1303e152800020
WORD $0xa9414ffe
	ADD $32, RSP
WORD $0xd65f03c0
	SUB $32, RSP
DWORD $0x5280007339000009
DWORD $0x3900040939418909
DWORD $0x3900080839418d08
DWORD $0xaa1303e152800020
WORD $0xa9414ffe
	ADD $32, RSP
WORD $0xd65f03c0
	SUB $32, RSP
DWORD $0x1400000652800093
DWORD $0x14000004528000b3
DWORD $0x14000002528000d3
DWORD $0xcb010008528000f3
DWORD $0x54fffa22eb13011f
DWORD $0x38686829aa1f03e8
DWORD $0x9100050838286809
DWORD $0x54ffff81eb08027f
WORD $0x17ffffcc
	ADD $32, RSP
	// 1424: rtp_values::value::stream_id::write_repaired::<#7ba4d078ccf006bf>
WORD $0xf81e03fe
	SUB $32, RSP
DWORD $0x39420829a9014ffe
DWORD $0xaa0103e8340002e9
DWORD $0x340003693846ac29
DWORD $0x3400044a3941ad0a
DWORD $0x3400050a3941b10a
DWORD $0x3400060a3941b50a
DWORD $0x340007493941b909
DWORD $0x340007493941bd09
DWORD $0x340007493941c109
DWORD $0x340007493941c509
DWORD $0x7100011f3941c908
DWORD $0x9a88051352800108
DWORD $0xaa1f03f314000036
DWORD $0xaa1303e12a1f03e0
WORD $0xa9414ffe
	ADD $32, RSP
WORD $0xd65f03c0
	SUB $32, RSP
DWORD $0xaa1303e2aa1f03f3
DWORD $0x52800020940066ac
DWORD $0xa9414ffeaa1303e1
	ADD $32, RSP
WORD $0xd65f03c0
	SUB $32, RSP
WORD $0x39000009
DWORD $0x5280002052800033
DWORD $0xa9414ffeaa1303e1
	ADD $32, RSP
WORD $0xd65f03c0
	SUB $32, RSP
WORD $0x39000009
DWORD $0x3941ad0852800053
DWORD $0x5280002039000408
DWORD $0xa9414ffeaa1303e1
	ADD $32, RSP
WORD $0xd65f03c0
	SUB $32, RSP
WORD $0x39000009
DWORD $0x3941ad0952800073
DWORD $0x3941b10839000409
DWORD $0x5280002039000808
DWORD $0xa9414ffeaa1303e1
	ADD $32, RSP
WORD $0xd65f03c0
	SUB $32, RSP
WORD $0x52800093
DWORD $0x528000b314000006
DWORD $0x528000d314000004
DWORD $0x528000f314000002
DWORD $0xeb13011fcb010008
DWORD $0xaa1f03e854fffa22
DWORD $0x3828680938686829
DWORD $0xeb08027f91000508
DWORD $0x17ffffcc54ffff81
	ADD $32, RSP
	// 1788: rtp_values::value::mid::write::<#7ba4d078ccf006bf>
WORD $0xf81e03fe
	SUB $32, RSP
WORD $0xa9014ffe
DWORD $0x340004e939420029
DWORD $0x38450c29aa0103e8
DWORD $0x3941450a34000569
DWORD $0x3941490a3400064a
DWORD $0x39414d0a3400070a
DWORD $0x394151093400080a
DWORD $0x3941550934000949
DWORD $0x3941590934000949
DWORD $0x39415d0934000949
DWORD $0x3941610934000949
DWORD $0x3941650934000949
DWORD $0x3941690934000949
DWORD $0x39416d0934000949
DWORD $0x3941710934000949
DWORD $0x3941750934000949
DWORD $0x3941790934000949
DWORD $0x39417d0934000949
DWORD $0x3941810934000949
DWORD $0x528002097100013f
DWORD $0x140000469a890533
DWORD $0x2a1f03e0aa1f03f3
DWORD $0xa9414ffeaa1303e1
	ADD $32, RSP
WORD $0xd65f03c0
	SUB $32, RSP
WORD $0xaa1f03f3
DWORD $0x94006641aa1303e2
DWORD $0xaa1303e152800020
WORD $0xa9414ffe
	ADD $32, RSP
WORD $0xd65f03c0
	SUB $32, RSP
DWORD $0x5280003339000009
DWORD $0xaa1303e152800020
WORD $0xa9414ffe
	ADD $32, RSP
WORD $0xd65f03c0
	SUB $32, RSP
DWORD $0x5280005339000009
DWORD $0x3900040839414508
DWORD $0xaa1303e152800020
WORD $0xa9414ffe
	ADD $32, RSP
WORD $0xd65f03c0
	SUB $32, RSP
DWORD $0x5280007339000009
DWORD $0x3900040939414509
DWORD $0x3900080839414908
DWORD $0xaa1303e152800020
WORD $0xa9414ffe
	ADD $32, RSP
WORD $0xd65f03c0
	SUB $32, RSP
DWORD $0x1400001652800093
DWORD $0x14000014528000b3
DWORD $0x14000012528000d3
DWORD $0x14000010528000f3
DWORD $0x1400000e52800113
DWORD $0x1400000c52800133
DWORD $0x1400000a52800153
DWORD $0x1400000852800173
DWORD $0x1400000652800193
DWORD $0x14000004528001b3
DWORD $0x14000002528001d3
DWORD $0xcb010009528001f3
DWORD $0x54fff822eb13013f
DWORD $0xd1014129cb080009
DWORD $0x54000062f100413f
DWORD $0x1400001caa1f03e9
DWORD $0x54000062f100427f
DWORD $0x1400000daa1f03e9
DWORD $0x927c0269927e066a
DWORD $0x9101410caa0003eb
DWORD $0x3cc10580927c026d
DWORD $0x3c810560f10041ad
DWORD $0xeb09027f54ffffa1
DWORD $0xb400018a54fff5c0
DWORD $0x927e0a69aa0903eb
DWORD $0xcb0901688b08016a
DWORD $0x9101414a8b0b000b
DWORD $0xb1001108b840454c
DWORD $0x54ffffa1b800456c
DWORD $0x3869682814000004
DWORD $0x9100052938296808
DWORD $0x54ffff81eb09027f
WORD $0x17ffff9c
	ADD $32, RSP
	// 2408: rtp_ext::elements::skip_zeros
DWORD $0xaa0103eaaa0003eb
DWORD $0xf100414aaa0a03e8
DWORD $0x540000a3aa0b03e9
DWORD $0xaa0b018ca940312b
DWORD $0xb4ffff2c9100412b
DWORD $0x8b010000aa1f03ea
DWORD $0x540000c0eb0a0101
DWORD $0x9100054a386a692b
DWORD $0x8b0a012834ffff8b
DWORD $0xd65f03c0d1000500
	// 2488: rtp_ext::survey::one_more
DWORD $0xd65f03c091000400
	// 2496: rtp_ext::renamed_ids::lowest_beside::<#d4d397b1ff315637>
WORD $0xf81c03fe
	SUB $64, RSP
DWORD $0xa90257f6f9000bfe
DWORD $0x2a0303f3a9034ff4
DWORD $0xaa0103f52a0203f6
DWORD $0xaa1f03e8aa0003f4
DWORD $0xeb09011faa0103e9
DWORD $0x8b08028a54000122
DWORD $0x3940054a91000508
DWORD $0x12001d4a5100054a
DWORD $0x54ffff016b36015f
DWORD $0xf1003d3f14000010
DWORD $0x540005e32a1f03e1
DWORD $0x2a0103e0f103f91f
DWORD $0xaa1403e0540004c8
DWORD $0x9400002faa0803e1
DWORD $0x52801fe99100400a
DWORD $0xf103fd5faa0003e8
DWORD $0x17ffffe89a893149
DWORD $0xeb15011faa1f03e8
DWORD $0x8b08028954000142
DWORD $0x3940052991000501
DWORD $0x51000529aa0103e8
DWORD $0x6b33013f12001d29
DWORD $0x1400001054fffee1
DWORD $0x2a1f03e1f1003ebf
DWORD $0xf103f91f54000283
DWORD $0x540001682a0103e0
DWORD $0xaa0803e1aa1403e0
DWORD $0x9100400a94000014
DWORD $0xaa0003e852801fe9
DWORD $0x9a893155f103fd5f
DWORD $0x5280002017ffffe7
DWORD $0xa94257f6a9434ff4
WORD $0xf9400bfe
	ADD $64, RSP
WORD $0xd65f03c0
	SUB $64, RSP
DWORD $0xa9434ff42a0103e0
DWORD $0xf9400bfea94257f6
	ADD $64, RSP
WORD $0xd65f03c0
	// 2800: rtp_c::kinds::StoredMap::past_unmapped
DWORD $0xaa0103e091000408
DWORD $0xf103fc3f91004021
DWORD $0x6f07e7e054000128
DWORD $0x4f00e5e23ce06901
DWORD $0x6e2034404e208420
DWORD $0x1e2600096e30a800
DWORD $0xd65f03c03607fea9
	// 2856: rtp_ext::block_values::read_values::<#9a3a19c0cce455e9>
WORD $0xf81603fe
	SUB $160, RSP
DWORD $0xa90667faa9056ffe
DWORD $0xa90857f6a9075ff8
DWORD $0xaa0403f3a9094ff4
DWORD $0xaa0103e8aa0203f5
DWORD $0xaa0003f472001c7f
DWORD $0xb500023554000060
DWORD $0xb5003b1514000002
DWORD $0xa94857f6a9494ff4
DWORD $0xa94667faa9475ff8
WORD $0xa9456ffe
	ADD $160, RSP
WORD $0xd65f03c0
	SUB $160, RSP
DWORD $0xaa1703e1aa1603e0
DWORD $0x94000658aa1303e2
DWORD $0xb4fffe75aa1a03e8
DWORD $0x3400008939400109
DWORD $0x540002e2f1000abf
DWORD $0xf1000abf17ffffee
DWORD $0xf10006bf54000140
DWORD $0xf1000ebf54fffd40
DWORD $0x3940050954000108
DWORD $0x39400909350000c9
DWORD $0x17ffffe335000089
DWORD $0x34fffc2939400509
DWORD $0x91000500d10006a1
DWORD $0xb4fffba197ffff5e
DWORD $0xaa0003e8aa0103f5
DWORD $0x54fffb23f100083f
DWORD $0x91000ae939400517
DWORD $0x54fffaa3eb0902b5
DWORD $0x8b09011aaa0803f6
DWORD $0xb4fffbaa384026ca
DWORD $0x51000529386a6a89
DWORD $0x54fffb287100393f
	MOVD $rtp_wire_constants<>+48(SB), R10
DWORD $0x10fffa2b9100014a
DWORD $0x8b0c096b3869694c
DWORD $0x71000effd61f0160
DWORD $0x3940090954fffa03
DWORD $0x3940110839400d0a
DWORD $0x2a0a412953185d29
DWORD $0x528848092a086128
DWORD $0x5ac0090872a001e9
DWORD $0x528000299ba97d08
DWORD $0xd352fd083901ce69
DWORD $0x17ffffc1f9000268
DWORD $0x54001ae371000aff
DWORD $0x39400348b4001a75
DWORD $0xaa1503e1aa1a03e0
DWORD $0xf1000abf35000248
DWORD $0xf10006bf54000140
DWORD $0xf1000ebf54001940
DWORD $0x3940074854000108
DWORD $0x39400b48350000c8
DWORD $0x140000c335000088
DWORD $0x3400182839400748
DWORD $0xd10006a191000740
DWORD $0xb40017a197ffff1e
DWORD $0x54001763f100083f
DWORD $0x91000b0839400418
DWORD $0x540016e3eb08003b
DWORD $0x38402729aa0003f9
DWORD $0x38696a89b4001709
DWORD $0x540016a171003d3f
DWORD $0xaa1903e08b08001a
DWORD $0x94000323aa1803e1
DWORD $0xaa1b03f57100001f
DWORD $0x9a9613369a971317
DWORD $0x140000a8b5fffafb
DWORD $0x394002c834fff257
DWORD $0x5280002ad2a021c9
DWORD $0x3901e66af2c01689
DWORD $0xf2e00b49d37c0508
DWORD $0x790086689ac82528
DWORD $0x710012ff17ffff88
DWORD $0xb94002c854fff0c3
DWORD $0x3901de6952800029
DWORD $0xb9003e685ac00908
DWORD $0x71000aff17ffff80
DWORD $0x794002c854ffefc3
DWORD $0x3901e26952800029
DWORD $0x53107d085ac00908
DWORD $0x17ffff7779008268
DWORD $0x710042ffb203c3e8
	MOVD $rtp_wire_constants<>+880(SB), R24
DWORD $0xa901ffff91000318
DWORD $0xf9001fe8a902a3ff
DWORD $0x340012b754000ba8
DWORD $0x38a86ac9aa1f03e8
DWORD $0x38696b09b7f80b29
DWORD $0x382869499100c3ea
DWORD $0xeb0802ff91000508
DWORD $0x3dc00fe054ffff21
DWORD $0x710012ff14000098
DWORD $0xb94002c854ffec03
DWORD $0x3901da6952800029
DWORD $0xb9003a685ac00908
DWORD $0x34ffeb3717ffff5a
DWORD $0x52802029394002c8
DWORD $0x1200190a7807b269
DWORD $0x4b0a03e953077d08
DWORD $0x39013e6839013a69
DWORD $0x710022ff17ffff50
DWORD $0x710042ff54ffe9c3
DWORD $0xf840a10854000ac3
DWORD $0x14000054dac00d08
DWORD $0x54ffe8e371000eff
DWORD $0x39400d0a39400909
DWORD $0x53185d2939401108
WORD $0x2a0a4129
	MOVD $rtp_wire_constants<>+0(SB), R10
WORD $0xfd400140
DWORD $0x528020292a086128
DWORD $0x5ac009087807d269
DWORD $0x530c7d09fd001260
DWORD $0xfd001a6012002d08
DWORD $0xf9000e69f9001668
DWORD $0x34ffe67717ffff34
DWORD $0x52800029394002c8
DWORD $0x390136683901ea69
DWORD $0xaa1603e017ffff2e
DWORD $0xaa1303e2aa1703e1
DWORD $0x17ffff29940003d2
DWORD $0x54ffe4e3710026ff
DWORD $0x3940090a78403109
DWORD $0x7840510b5280002d
DWORD $0x784091087840710c
DWORD $0x3901326a5ac00929
DWORD $0x5ac0098c5ac0096b
DWORD $0x53107d295ac00908
DWORD $0x53107d8b53107d6a
DWORD $0x3901fe6d53107d08
DWORD $0x79008e6a79008a69
DWORD $0x790096687900926b
DWORD $0x910063e017ffff12
DWORD $0xaa1703e2aa1603e1
DWORD $0x394063e894000464
DWORD $0xa94223e935ffe188
DWORD $0xa9042beab203c3ea
DWORD $0xaa1f03eab40007a8
DWORD $0x38eb692caa1f03eb
DWORD $0x540000cb3101019f
DWORD $0x910103ed92401d8c
DWORD $0x382a69ac386c6b0c
DWORD $0x9100056b9100054a
DWORD $0x54000062eb08017f
DWORD $0x54fffe81f100415f
DWORD $0x1400002d3dc013e0
DWORD $0xf94002c9aa1f03e8
DWORD $0x5280002a71003eff
DWORD $0x3901d26a1a9f97eb
DWORD $0x3901d66bdac00d29
DWORD $0x17fffeeda900a269
WORD $0xaa1f03f5
	MOVD $rtp_wire_constants<>+880(SB), R26
WORD $0x9100035a
DWORD $0xf10006e9b4ffdd17
DWORD $0x394002c854000081
DWORD $0x1400007b35ffdc88
DWORD $0x3840150aaa1603e8
DWORD $0x72000d4cd344154b
DWORD $0x540000e01100056a
DWORD $0x2a0c03ed2a0c03ee
DWORD $0x140000242a0c03ef
DWORD $0x140000106f00e400
DWORD $0xd341fdb09100096d
DWORD $0x54ffda63eb100129
DWORD $0x3940010d3400020b
DWORD $0x12000dae7100095f
DWORD $0x2a0c03ed540001e1
DWORD $0x4f01e40014000013
DWORD $0x6e218c014f01e401
DWORD $0x528000284e611c00
DWORD $0x390202683d801660
DWORD $0x17fffec33901827f
DWORD $0x2a0c03ed2a0c03ee
DWORD $0x39400acd14000007
DWORD $0x53047dad71000d5f
DWORD $0x39400acc54000060
DWORD $0x3940011112000d8c
DWORD $0x8b1001082a0c03ef
DWORD $0x394002d053047e2c
DWORD $0x5400022072000e10
DWORD $0xe2058001e270200
DWORD $0x1b0a7d6c1e26000b
DWORD $0x91000f0a92401d98
DWORD $0xeb0a0136d342fd4a
DWORD $0xb400038a54ffd543
DWORD $0x540003a1f100055f
DWORD $0x53081d2939400109
DWORD $0x1400003b35000518
DWORD $0xe2058001e270180
DWORD $0x34fffe2b1e26000c
DWORD $0x7100095f1e2701c0
DWORD $0x1e26000b0e205800
DWORD $0x54fffd600b0b018c
DWORD $0x71000d5f1e2701a0
DWORD $0x1e26000b0e205800
DWORD $0x54fffca00b0b018c
DWORD $0xe2058001e2701e0
DWORD $0xb0a018c1e26000a
DWORD $0x2a1f03e917ffffe0
DWORD $0x1400002335000218
DWORD $0x540000a87100231f
DWORD $0x5ac0092979400109
DWORD $0x1400001d35000158
DWORD $0x540000a1f1000d5f
DWORD $0x7940010b39400909
DWORD $0x140000022a094169
DWORD $0x5ac00929b9400109
DWORD $0x2a0903e95280040b
DWORD $0xcb18056b8b0a0117
DWORD $0x3201f3eb9acb2529
DWORD $0x9e6701210a0b012b
DWORD $0xe2058211e270160
DWORD $0xe31b8210e205800
DWORD $0x1e2600290e31b800
DWORD $0x8b1801291e26000b
DWORD $0x54000141ab0b0139
DWORD $0x54000382f10016c9
DWORD $0x39020e6852800028
DWORD $0xd10006d617fffe66
DWORD $0xf1000739910006f7
DWORD $0xb4ffffd654ffff00
DWORD $0x36ffff4839c002e8
DWORD $0x540000a0f10006df
DWORD $0x37f8006839c006e8
DWORD $0x1400000952800048
DWORD $0xaa1703e1910063e0
DWORD $0x94000294aa1603e2
DWORD $0x7100051f394063e8
DWORD $0xf94017e854fffde1
DWORD $0xcb0802d68b0802f7
DWORD $0x5280002817ffffeb
DWORD $0x5ac0094b794002ea
DWORD $0x6b4b415f529fffea
DWORD $0x794006eb54ffc900
DWORD $0x6b4b415f5ac0096b
DWORD $0xeb18011f54ffc880
DWORD $0xf100153f54fffb42
DWORD $0x91000508d1001529
DWORD $0x54fffe22910016f7
DWORD $0xaa1603e017ffffd4
DWORD $0xaa1303e2aa1703e1
DWORD $0xaa1a03e89400048f
DWORD $0x3940010bb4ffc555
DWORD $0xf1000abf350002ab
DWORD $0xf10006bf54000140
DWORD $0xf1000ebf54ffc480
DWORD $0x3940050954000108
DWORD $0x39400909350000c9
DWORD $0x17fffe1d35000089
DWORD $0x34ffc36939400509
DWORD $0x91000500d10006a1
DWORD $0xb4ffc2e197fffd98
DWORD $0xaa0103f53940000b
DWORD $0x7103bd7faa0003e8
DWORD $0x12000d6954ffc248
DWORD $0xeb0a02b51100092a
DWORD $0x2a0b03eb54ffc1c3
DWORD $0xd344fd6b8b0a011a
DWORD $0x386b6a8b34fffbeb
DWORD $0x7100397f5100056b
WORD $0x54fffb68
	MOVD $rtp_wire_constants<>+63(SB), R12
WORD $0x9100018c
DWORD $0x10fffa4d91000516
DWORD $0x8b0e09ad386b698e
DWORD $0xd61f01a0d1000557
DWORD $0x54fffa037100093f
DWORD $0x3940090a39400509
DWORD $0x53185d2939400d08
DWORD $0x2a0861282a0a4129
DWORD $0x72a001e952884809
DWORD $0x9ba97d085ac00908
DWORD $0x3901ce6952800029
DWORD $0xf9000268d352fd08
DWORD $0x34001aa917ffffc1
DWORD $0x39400348b40019f5
DWORD $0xaa1503e1aa1a03e0
DWORD $0xf1000abf35000268
DWORD $0xf10006bf54000140
DWORD $0xf1000ebf540018c0
DWORD $0x3940074854000108
DWORD $0x39400b48350000c8
DWORD $0x140000bf35000088
DWORD $0x340017a839400748
DWORD $0xd10006a191000740
DWORD $0xb400172197fffd56
DWORD $0x7103bd1f39400008
DWORD $0x12000d09540016c8
DWORD $0xeb09003b11000929
DWORD $0x2a0803e854001643
DWORD $0x34001668d344fd08
DWORD $0x71003d1f38686a88
DWORD $0x9100041854001601
DWORD $0x8b09001ad1000539
DWORD $0xaa1903e1aa1803e0
DWORD $0x7100001f94000158
DWORD $0x9a971337aa1b03f5
DWORD $0xb5fffa9b9a961316
DWORD $0x394002c8140000a1
DWORD $0x5280002ad2a021c9
DWORD $0x3901e66af2c01689
DWORD $0xf2e00b49d37c0508
DWORD $0x790086689ac82528
DWORD $0x71000d3f17ffff87
DWORD $0xb94002c854fff0a3
DWORD $0x3901de6952800029
DWORD $0xb9003e685ac00908
DWORD $0x34ffefc917ffff7f
DWORD $0x52800029794002c8
DWORD $0x5ac009083901e269
DWORD $0x7900826853107d08
DWORD $0xaa1f03e817ffff77
DWORD $0xa901ffffb203c3e9
DWORD $0xf9001fe9a902a7ff
DWORD $0xb7f80c2938a86ac9
	MOVD $rtp_wire_constants<>+880(SB), R10
DWORD $0x386969499100014a
DWORD $0x382869499100c3ea
DWORD $0xeb0802ff91000508
DWORD $0x3dc00fe054fffec1
DWORD $0x528000284f01e401
DWORD $0x390202683901827f
DWORD $0x4e611c006e218c01
DWORD $0x17ffff5e3d801660
DWORD $0x54ffeb8371000d3f
DWORD $0x52800029b94002c8
DWORD $0x5ac009083901da69
DWORD $0x17ffff56b9003a68
DWORD $0x52802029394002c8
DWORD $0x1200190a7807b269
DWORD $0x4b0a03e953077d08
DWORD $0x39013e6839013a69
DWORD $0x71001d3f17ffff4d
DWORD $0x71003d3f54ffe963
DWORD $0xf840910854000da1
DWORD $0x1400006bdac00d08
DWORD $0x54ffe8837100093f
DWORD $0x3940090a39400509
DWORD $0x53185d2939400d08
WORD $0x2a0a4129
	MOVD $rtp_wire_constants<>+0(SB), R10
WORD $0xfd400140
DWORD $0x528020292a086128
DWORD $0x5ac009087807d269
DWORD $0x530c7d09fd001260
DWORD $0xfd001a6012002d08
DWORD $0xf9000e69f9001668
DWORD $0x394002c817ffff31
DWORD $0x3901ea6952800029
DWORD $0x17ffff2c39013668
DWORD $0xaa1703e1aa1603e0
DWORD $0x94000207aa1303e2
DWORD $0x7100213f17ffff27
DWORD $0x7940050954ffe4a3
DWORD $0x5280002d3940050a
DWORD $0x79400d0c7940090b
DWORD $0x5ac0092979401108
DWORD $0x5ac0096b3901326a
DWORD $0x5ac009085ac0098c
DWORD $0x53107d6a53107d29
DWORD $0x53107d0853107d8b
DWORD $0x79008a693901fe6d
DWORD $0x7900926b79008e6a
DWORD $0x17ffff1079009668
DWORD $0xaa1603e1910063e0
DWORD $0x94000299aa1703e2
DWORD $0x35ffe148394063e8
DWORD $0xb203c3eaa94223e9
DWORD $0xb40007e8a9042bea
DWORD $0xaa1f03ebaa1f03ea
DWORD $0x3101019f38eb692c
DWORD $0x92401d8c5400012b
	MOVD $rtp_wire_constants<>+880(SB), R13
DWORD $0x386c69ac910001ad
DWORD $0x382a69ac910103ed
DWORD $0x9100056b9100054a
DWORD $0x54000062eb08017f
DWORD $0x54fffe21f100415f
DWORD $0x17ffff8d3dc013e0
WORD $0xaa1f03f5
	MOVD $rtp_wire_constants<>+880(SB), R26
WORD $0x9100035a
DWORD $0x540000c1f10006e9
DWORD $0x35ffdd48394002c8
DWORD $0x39020e6852800028
DWORD $0xaa1603e817fffee7
DWORD $0xd344154b3840150a
DWORD $0x1100056a72000d4c
DWORD $0x2a0c03ed540001e0
DWORD $0x2a0c03f02a0c03ee
DWORD $0xaa1f03e814000025
DWORD $0x71003d3ff94002ca
DWORD $0x1a9f17eb52800029
DWORD $0xdac00d493901d269
DWORD $0xa900a2693901d66b
DWORD $0x9100096d17fffed3
DWORD $0xeb0f0129d341fdaf
DWORD $0x3400012b54ffd9e3
DWORD $0x7100095f3940010d
DWORD $0x5400010112000dad
DWORD $0x1400000c2a0c03ee
DWORD $0x17ffff614f01e400
DWORD $0x2a0c03ee2a0c03ed
DWORD $0x39400ace14000007
DWORD $0x53047dce71000d5f
DWORD $0x39400acc54000060
DWORD $0x3940011112000d8c
DWORD $0x8b0f01082a0c03f0
DWORD $0x394002cf53047e2c
DWORD $0x540000c072000def
DWORD $0xe2058001e2701e0
DWORD $0x1b0a7d6a1e26000b
DWORD $0x1e27018014000016
DWORD $0x71000d5f1e2701a1
DWORD $0x1e2702031e2701c2
DWORD $0xe2058210e205800
DWORD $0xe2058630e205842
DWORD $0x1e26002d1e26000c
DWORD $0x1e26006f1e26004e
DWORD $0xb0e01ae0b0d018d
DWORD $0x1a8f01ce0b0f01cf
DWORD $0x1a8e01aa7100095f
DWORD $0x1a8a018a7100017f
DWORD $0x91000f0a92401d58
DWORD $0xeb0a0136d342fd4a
DWORD $0xb40000ea54ffd2e3
DWORD $0x54000101f100055f
DWORD $0x53081d2939400109
DWORD $0x17ffffa735000278
DWORD $0x350002182a1f03e9
DWORD $0x7100231f17ffffa4
DWORD $0x79400109540000a8
DWORD $0x350001585ac00929
DWORD $0xf1000d5f17ffff9e
DWORD $0x39400909540000a1
DWORD $0x2a0941697940010b
DWORD $0xb940010914000002
DWORD $0x5280040b5ac00929
DWORD $0x8b0a01172a0903e9
DWORD $0x9acb2529cb18056b
DWORD $0xa0b012b3201f3eb
DWORD $0x1e2701609e670121
DWORD $0xe2058000e205821
DWORD $0xe31b8000e31b821
DWORD $0x1e26000b1e260029
DWORD $0xab0b01398b180129
DWORD $0xf10016c954000321
DWORD $0x5280002854fff043
DWORD $0x5ac0094b794002ea
DWORD $0x6b4b415f529fffea
DWORD $0x794006eb54ffcca0
DWORD $0x6b4b415f5ac0096b
DWORD $0xeb18011f54ffcc20
DWORD $0xf100153f54ffeec2
DWORD $0x91000508d1001529
DWORD $0x54fffe22910016f7
DWORD $0xd10006d617ffff70
DWORD $0xf1000739910006f7
DWORD $0xb4ffffd654fffd20
DWORD $0x36ffff4839c002e8
DWORD $0x540000a0f10006df
DWORD $0x37f8006839c006e8
DWORD $0x1400000952800048
DWORD $0xaa1703e1910063e0
DWORD $0x940000beaa1603e2
DWORD $0x7100051f394063e8
DWORD $0xf94017e854fffde1
DWORD $0xcb0802d68b0802f7
WORD $0x17ffffeb
	ADD $160, RSP
	// 6592: rtp_ext::block_values::is_another_allocation
DWORD $0xf1000429b40002c1
DWORD $0x39400008540000a1
DWORD $0x1a9f17e07100011f
DWORD $0xaa0003e8d65f03c0
DWORD $0xd344154b3840150a
DWORD $0x1100056a72000d4d
DWORD $0x1e2701a0540000c0
DWORD $0x1e26000b0e205800
DWORD $0x1400002f1b0a7d6a
DWORD $0xd341fd8c9100096c
DWORD $0x54000062eb0c0129
DWORD $0xd65f03c02a1f03e0
DWORD $0x53047dce3940010e
DWORD $0x3940010f340000eb
DWORD $0x12000def7100095f
DWORD $0x2a0d03f0540000c1
DWORD $0x2a0d03ef1400000d
DWORD $0x1400000a2a0d03f0
DWORD $0x71000d5f39400810
DWORD $0x540000c053047e10
DWORD $0x12000dad3940080d
DWORD $0xe2058001e2701a0
DWORD $0x1e2701c01e26000d
DWORD $0x71000d5f1e2701e1
DWORD $0x8b0c01081e270202
DWORD $0xe2058210e205800
DWORD $0x1e26000e0e205842
DWORD $0x1e2600501e26002f
DWORD $0xb1001f00b0f01cf
DWORD $0x1a8d020d0b0d020d
DWORD $0x1a8d01ea7100095f
DWORD $0x1a8a01ca7100017f
WORD $0xf81a03fe
	SUB $96, RSP
DWORD $0xa90457f6f9001bfe
DWORD $0x92401d55a9054ff4
DWORD $0xd342fd4a91000eaa
DWORD $0x54000102eb0a0133
DWORD $0xa9454ff42a1f03e0
DWORD $0xa94457f6f9401bfe
	ADD $96, RSP
WORD $0xd65f03c0
	SUB $96, RSP
WORD $0xb40000ea
DWORD $0x54000101f100055f
DWORD $0x53081d2939400109
DWORD $0x1400000935000335
DWORD $0x350002d52a1f03e9
DWORD $0x710022bf14000006
DWORD $0x7940010954000168
DWORD $0x350002155ac00929
DWORD $0xa9454ff452800020
DWORD $0xa94457f6f9401bfe
	ADD $96, RSP
WORD $0xd65f03c0
	SUB $96, RSP
WORD $0xf1000d5f
DWORD $0x39400909540000a1
DWORD $0x2a0941697940010b
DWORD $0xb940010914000002
DWORD $0x5280040b5ac00929
DWORD $0x8b0a01142a0903e9
DWORD $0x9acb2529cb15056b
DWORD $0x9e6701211201f12b
DWORD $0xe2058211e270160
DWORD $0xe31b8210e205800
DWORD $0x1e2600290e31b800
DWORD $0x8b1501291e26000b
DWORD $0x540001c1ab0b0136
DWORD $0x54000402f1001669
DWORD $0xa9454ff452800020
DWORD $0xa94457f6f9401bfe
	ADD $96, RSP
WORD $0xd65f03c0
	SUB $96, RSP
WORD $0xd1000673
DWORD $0xf10006d691000694
DWORD $0xb4ffffd354fffe80
DWORD $0x36ffff4839c00288
DWORD $0x540000a0f100067f
DWORD $0x37f8006839c00688
DWORD $0x1400000952800048
DWORD $0xaa1403e1910063e0
DWORD $0x9400001caa1303e2
DWORD $0x7100051f394063e8
DWORD $0xf94017e854fffde1
DWORD $0xcb0802738b080294
DWORD $0x5280002817ffffeb
DWORD $0x5ac0094b7940028a
DWORD $0x6b4b415f529fffea
DWORD $0x7940068b54fff480
DWORD $0x6b4b415f5ac0096b
DWORD $0xeb15011f54fff400
DWORD $0x54fff3c252800020
DWORD $0xd1001529f100153f
DWORD $0x9100169491000508
DWORD $0x17ffff9854fffe02
	ADD $96, RSP
	// 7316: rtp_vla::leb::long_number_at
WORD $0xb4000162
DWORD $0x9240192839400029
DWORD $0x52800029373800c9
DWORD $0xf900000a5280002a
DWORD $0xd65f03c0a900a408
DWORD $0x54000081f100045f
DWORD $0xf900081fa9007c1f
DWORD $0x39c00429d65f03c0
DWORD $0xaa0a1d081200192a
DWORD $0x5280004937f800c9
DWORD $0xf900000a5280002a
DWORD $0xd65f03c0a900a408
DWORD $0x54fffe60f100085f
DWORD $0x1200192a39c00829
DWORD $0x37f800c9aa0a3908
DWORD $0x5280002a52800069
DWORD $0xa900a408f900000a
DWORD $0xf1000c5fd65f03c0
DWORD $0x39c00c2954fffd00
DWORD $0xaa0a55081200192a
DWORD $0x5280008937f800c9
DWORD $0xf900000a5280002a
DWORD $0xd65f03c0a900a408
DWORD $0x54fffba0f100105f
DWORD $0x1200192a39c01029
DWORD $0x37f800c9aa0a7108
DWORD $0x5280002a528000a9
DWORD $0xa900a408f900000a
DWORD $0xf100145fd65f03c0
DWORD $0x39c0142954fffa40
DWORD $0xaa0a8d081200192a
DWORD $0x528000c937f800c9
DWORD $0xf900000a5280002a
DWORD $0xd65f03c0a900a408
DWORD $0x54fff8e0f100185f
DWORD $0x1200192a39c01829
DWORD $0x37f800c9aa0aa908
DWORD $0x5280002a528000e9
DWORD $0xa900a408f900000a
DWORD $0xf1001c5fd65f03c0
DWORD $0x39c01c2954fff780
DWORD $0xaa0ac5081200192a
DWORD $0x5280010937f800c9
DWORD $0xf900000a5280002a
DWORD $0xd65f03c0a900a408
DWORD $0x54fff620f100205f
DWORD $0x1200192a39c02029
DWORD $0x37f800c9aa0ae108
DWORD $0x5280002a52800129
DWORD $0xa900a408f900000a
DWORD $0x52800029d65f03c0
DWORD $0x52800129f9000009
DWORD $0xd65f03c0a900a408
	// 7736: rtp_values::value::stream_id::read::<#a6b2bc1c138ab33f>
WORD $0xf81b03fe
	SUB $80, RSP
DWORD $0xa9044ff4a902fbff
DWORD $0xaa0103e2aa0203f3
DWORD $0xf100205faa0003e1
	MOVD $rtp_wire_constants<>+880(SB), R20
DWORD $0xa901ffff91000294
DWORD $0xb40001c254000b28
DWORD $0xb7f80ac839800028
DWORD $0xf100045f38686a88
DWORD $0x5280040c54000161
DWORD $0x5280040bd2e4000f
DWORD $0x2a0c03ed2a0c03ee
DWORD $0x528004095280040a
DWORD $0xb203c3e814000040
DWORD $0x3980042914000066
DWORD $0x38696a89b7f808e9
DWORD $0x54000101f100085f
DWORD $0xd2e4000f5280040c
DWORD $0x2a0c03ee5280040b
DWORD $0x5280040a2a0c03ed
DWORD $0x3980082a14000032
DWORD $0x386a6a8ab7f8076a
DWORD $0x540000e1f1000c5f
DWORD $0xd2e4000f5280040c
DWORD $0x2a0c03ee5280040b
DWORD $0x140000272a0c03ed
DWORD $0xb7f8060b39800c2b
DWORD $0xf100105f386b6a8b
DWORD $0x5280040c540000c1
DWORD $0x2a0c03eed2e4000f
DWORD $0x1400001d2a0c03ed
DWORD $0xb7f804cc3980102c
DWORD $0xf100145f386c6a8d
DWORD $0x5280040c540000a1
DWORD $0x2a0c03eed2e4000f
DWORD $0x3980142c14000014
DWORD $0x386c6a8eb7f803ac
DWORD $0x54000081f100185f
DWORD $0xd2e4000f5280040c
DWORD $0x3980182c1400000c
DWORD $0x386c6a8cb7f802ac
DWORD $0x54000061f1001c5f
DWORD $0x14000005d2e4000f
DWORD $0xb7f801cf39801c2f
DWORD $0xd3481def386f6a8f
DWORD $0x2a0b03ebaa0cc1ec
DWORD $0x2a0903e92a0a03ea
DWORD $0xaa0d818caa0ea18c
DWORD $0xaa0a416aaa0b618b
DWORD $0xaa080128aa092149
DWORD $0x910063e01400001e
DWORD $0x394063e894000048
DWORD $0xa9444ff4340000c8
WORD $0xf9401bfe
	ADD $80, RSP
WORD $0xd65f03c0
	SUB $80, RSP
DWORD $0xb203c3e8a94227ea
DWORD $0xb4000229f9001fe8
DWORD $0xaa1f03ebaa1f03e8
DWORD $0x3101019f38eb694c
DWORD $0x92401d8c540000cb
DWORD $0x386c6a8c9100e3ed
DWORD $0x91000508382869ac
DWORD $0xeb09017f9100056b
DWORD $0xf100211f54000062
DWORD $0xf9401fe854fffe81
DWORD $0xd2e4000e92481d0d
DWORD $0xeb0e01bf92501d0f
DWORD $0x92581d0cd2e0040e
DWORD $0xeb0e01ff9a8d03ed
DWORD $0x92601d0bd2c4000e
DWORD $0xeb0e019f9a8f03ef
DWORD $0x92681d0ad2c0040e
DWORD $0xeb0e017f9a8c03ec
DWORD $0x92701d1052a4000e
DWORD $0xeb0e015f9a8b03eb
DWORD $0x92781d0892401d09
DWORD $0xf148021f9a8a03ea
DWORD $0xf140091f9a9003ee
DWORD $0xaa0b018baa0f01ad
DWORD $0xaa0e014a9a8803e8
DWORD $0xf100813faa0b01ab
DWORD $0x9a8903e9aa080148
DWORD $0x5280002aaa080168
DWORD $0x3902066aaa090108
DWORD $0x3901a67ff8061268
DWORD $0xf9401bfea9444ff4
	ADD $80, RSP
WORD $0xd65f03c0
	// 8432: core::str::utf8::from_utf8
WORD $0xf81b03fe
	SUB $80, RSP
DWORD $0xa90357f6f90013fe
DWORD $0xaa0203f4a9044ff4
DWORD $0xaa0003f3aa0103f5
DWORD $0xaa1f03e9b4001542
DWORD $0x14000008d1002296
DWORD $0x3738064b12001d6b
DWORD $0x8b0901885280002c
DWORD $0xaa0803e9eb14011f
DWORD $0x8b0902a854001402
DWORD $0x39c0010bcb09028a
DWORD $0x54fffea3f100095f
DWORD $0x39c0050b37fffe8b
DWORD $0xf1001d5f37fffe8b
DWORD $0x540005a8a90153f5
DWORD $0x37f80e4838e96aa8
DWORD $0xeb14011f91000528
DWORD $0x38e86aaa54001200
DWORD $0x9100092837fffd8a
DWORD $0x54001160eb14011f
DWORD $0x37fffcea38e86aaa
DWORD $0xeb14011f91000d28
DWORD $0x38e86aaa540010c0
DWORD $0x9100112837fffc4a
DWORD $0x54001020eb14011f
DWORD $0x37fffbaa38e86aaa
DWORD $0xeb14011f91001528
DWORD $0x38e86aaa54000f80
DWORD $0x9100192837fffb0a
DWORD $0x54000ee0eb14011f
DWORD $0x37fffa6938e86aa9
DWORD $0x7103097f14000074
DWORD $0x71037d7f54001303
DWORD $0xf100095f54000708
DWORD $0x39c0050c54001243
DWORD $0x54000f0c3101059f
DWORD $0x17ffffc65280004c
DWORD $0x5280010af9400108
DWORD $0xdac00108f201c108
DWORD $0xd343fd08dac01108
DWORD $0x8b0901089a880148
DWORD $0xeb09011f91002129
DWORD $0xcb08028954fff783
DWORD $0x54000223f100813f
DWORD $0xad4001218b0802a9
DWORD $0x6e0040014ea01c20
DWORD $0x9e6600090ea11c00
DWORD $0x54000121f201c13f
DWORD $0x91008101910043e0
DWORD $0x94000089aa1403e2
DWORD $0xaa0003e8cb000289
DWORD $0x54fffe28f1007d3f
DWORD $0xf100253fcb080289
DWORD $0xf8686aaa540007e3
DWORD $0xd10021295280010b
DWORD $0xdac0014af201c14a
DWORD $0xd343fd4adac0114a
DWORD $0x8b08014b9a8a016a
DWORD $0xeb08017f91002108
DWORD $0x8b08014854fffe62
DWORD $0x17ffff97d1002108
DWORD $0x540003087103bd7f
DWORD $0x540007e3f1000d5f
DWORD $0x3101059f39c0050c
DWORD $0x39c0090d540007ec
DWORD $0x5400078c310105bf
DWORD $0x12870fee12001d8d
DWORD $0xb0e01ad0b0b19ad
DWORD $0x540006c3710081bf
DWORD $0x5280006c710e01bf
DWORD $0x710d81bf9a8c33ee
DWORD $0xaa0e03ec54fff023
DWORD $0xaa0903e814000017
DWORD $0xf100115f17ffff7e
DWORD $0x39c0050c540004c3
DWORD $0x5400046c3101059f
DWORD $0x310105bf39c0090d
DWORD $0x39c00d0d5400040c
DWORD $0x540003ac310105bf
DWORD $0x12878fed12001d8c
DWORD $0xb0d018d0b0b198c
DWORD $0x710441bf5280008c
DWORD $0x710041bf9a9f318c
DWORD $0xb5ffed0c54000283
DWORD $0xf8766aa814000012
DWORD $0xf201c10852800109
DWORD $0xdac01108dac00108
DWORD $0x9a880128d343fd08
DWORD $0x17ffff5f8b160108
DWORD $0xf9000a74a900567f
DWORD $0xf94013fea9444ff4
WORD $0xa94357f6
	ADD $80, RSP
WORD $0xd65f03c0
	SUB $80, RSP
DWORD $0x540003a87103d17f
DWORD $0x54000323f100095f
DWORD $0x7103c17f3940050c
DWORD $0x12800dee12800fed
DWORD $0x1a8d01cd12800bef
DWORD $0x1280080e7103817f
DWORD $0x12800e0f1a8d01ed
DWORD $0x121c0db07103d17f
DWORD $0x7103b57f1a8e01ed
DWORD $0x1a8d016d12800c0b
DWORD $0x5280202b6b2c021f
DWORD $0x12001d8c54000128
DWORD $0x540000c86b2d019f
DWORD $0x540001a1f100095f
DWORD $0x14000002aa1f03eb
DWORD $0x528000285280202b
DWORD $0xa9002668f9000a6b
DWORD $0xf94013fea9444ff4
WORD $0xa94357f6
	ADD $80, RSP
WORD $0xd65f03c0
	SUB $80, RSP
DWORD $0x3101051f39c00908
DWORD $0xf1000d5f540000ac
DWORD $0x9a9f810b52806028
DWORD $0x5280402b17fffff1
WORD $0x17ffffef
	ADD $80, RSP
	// 9376: core::slice::words::skip_far::<#52f9edcae2f82f51>
DWORD $0xf101011fcb010048
DWORD $0xf940000954000223
DWORD $0xad4105408b01012a
DWORD $0x4ea11c61ad400d42
DWORD $0x4ea11c004ea01c40
DWORD $0xea11c006e004001
DWORD $0xf201c15f9e66000a
DWORD $0xd1010108540000a1
DWORD $0xf100fd1f91010021
DWORD $0xaa0103e054fffe48
WORD $0xd65f03c0
	// 9460: rtp_values::value::stream_id::read_repaired::<#a6b2bc1c138ab33f>
WORD $0xf81b03fe
	SUB $80, RSP
WORD $0xa902fbff
DWORD $0xaa0203f3a9044ff4
DWORD $0xaa0003e1aa0103e2
WORD $0xf100205f
	MOVD $rtp_wire_constants<>+880(SB), R20
WORD $0x91000294
DWORD $0x54000b28a901ffff
DWORD $0x39800028b40001c2
DWORD $0x38686a88b7f80ac8
DWORD $0x54000161f100045f
DWORD $0xd2e4000f5280040c
DWORD $0x2a0c03ee5280040b
DWORD $0x5280040a2a0c03ed
DWORD $0x1400004052800409
DWORD $0x14000066b203c3e8
DWORD $0xb7f808e939800429
DWORD $0xf100085f38696a89
DWORD $0x5280040c54000101
DWORD $0x5280040bd2e4000f
DWORD $0x2a0c03ed2a0c03ee
DWORD $0x140000325280040a
DWORD $0xb7f8076a3980082a
DWORD $0xf1000c5f386a6a8a
DWORD $0x5280040c540000e1
DWORD $0x5280040bd2e4000f
DWORD $0x2a0c03ed2a0c03ee
DWORD $0x39800c2b14000027
DWORD $0x386b6a8bb7f8060b
DWORD $0x540000c1f100105f
DWORD $0xd2e4000f5280040c
DWORD $0x2a0c03ed2a0c03ee
DWORD $0x3980102c1400001d
DWORD $0x386c6a8db7f804cc
DWORD $0x540000a1f100145f
DWORD $0xd2e4000f5280040c
DWORD $0x140000142a0c03ee
DWORD $0xb7f803ac3980142c
DWORD $0xf100185f386c6a8e
DWORD $0x5280040c54000081
DWORD $0x1400000cd2e4000f
DWORD $0xb7f802ac3980182c
DWORD $0xf1001c5f386c6a8c
DWORD $0xd2e4000f54000061
DWORD $0x39801c2f14000005
DWORD $0x386f6a8fb7f801cf
DWORD $0xaa0cc1ecd3481def
DWORD $0x2a0a03ea2a0b03eb
DWORD $0xaa0ea18c2a0903e9
DWORD $0xaa0b618baa0d818c
DWORD $0xaa092149aa0a416a
DWORD $0x1400001eaa080128
DWORD $0x97fffe99910063e0
DWORD $0x340000c8394063e8
DWORD $0xf9401bfea9444ff4
	ADD $80, RSP
WORD $0xd65f03c0
	SUB $80, RSP
WORD $0xa94227ea
DWORD $0xf9001fe8b203c3e8
DWORD $0xaa1f03e8b4000229
DWORD $0x38eb694caa1f03eb
DWORD $0x540000cb3101019f
DWORD $0x9100e3ed92401d8c
DWORD $0x382869ac386c6a8c
DWORD $0x9100056b91000508
DWORD $0x54000062eb09017f
DWORD $0x54fffe81f100211f
DWORD $0x92481d0df9401fe8
DWORD $0x92501d0fd2e4000e
DWORD $0xd2e0040eeb0e01bf
DWORD $0x9a8d03ed92581d0c
DWORD $0xd2c4000eeb0e01ff
DWORD $0x9a8f03ef92601d0b
DWORD $0xd2c0040eeb0e019f
DWORD $0x9a8c03ec92681d0a
DWORD $0x52a4000eeb0e017f
DWORD $0x9a8b03eb92701d10
DWORD $0x92401d09eb0e015f
DWORD $0x9a8a03ea92781d08
DWORD $0x9a9003eef148021f
DWORD $0xaa0f01adf140091f
DWORD $0x9a8803e8aa0b018b
DWORD $0xaa0b01abaa0e014a
DWORD $0xaa080148f100813f
DWORD $0xaa0801689a8903e9
DWORD $0xaa0901085280002a
DWORD $0xf806a26839020a6a
DWORD $0xa9444ff43901ca7f
WORD $0xf9401bfe
	ADD $80, RSP
WORD $0xd65f03c0
	// 10156: rtp_wire::header::block::close_block
WORD $0x91000c49
DWORD $0x91001040aa0003e8
DWORD $0xeb02014a927ef52a
DWORD $0xf100095f540001e0
DWORD $0xf100055f540000c0
DWORD $0x3820691f540000e1
DWORD $0x1400000891001440
DWORD $0x910018407820691f
DWORD $0x8b00010a14000005
DWORD $0x3900095f91001c40
DWORD $0x530a7d2a7900015f
DWORD $0x5280020b72001c3f
DWORD $0x53027d29529bd7cc
DWORD $0x33101d4b1a8b018b
DWORD $0xb900010b33081d2b
WORD $0xd65f03c0
	// 10276: rtp_ext::raw_writing::put_elements::<#d57726891005992a>
WORD $0xf81903fe
	SUB $112, RSP
WORD $0xf9000bfd
DWORD $0xa90367faa9026ffe
DWORD $0xa90557f6a9045ff8
DWORD $0xf9400c55a9064ff4
DWORD $0xf9400056b4000d35
DWORD $0xaa0003f3f9400857
DWORD $0x54000dc072001c3f
DWORD $0xaa1f03f8aa1f03e0
DWORD $0x910042da91000a79
DWORD $0x1400000791004a7b
DWORD $0x383d6a6839400028
DWORD $0x8b1403a091000718
DWORD $0x54000b20eb15031f
DWORD $0x8b00026b8b1816e9
DWORD $0xa94051289100081d
DWORD $0x3900016a3940612a
DWORD $0x390005748b0802c1
DWORD $0xf100069fb40002b4
DWORD $0xf1000a9f54fffe00
DWORD $0x39400028540000e8
DWORD $0x390001288b1d0269
DWORD $0x3900052839400428
DWORD $0xf1000e9f17ffffea
DWORD $0x3940002854000121
DWORD $0x390001288b1d0269
DWORD $0x3900052839400428
DWORD $0x3900092839400828
DWORD $0x8b1d026917ffffe0
DWORD $0xeb14013fcb010129
DWORD $0xf100229f54000262
DWORD $0x8b000329540000c3
DWORD $0xcb080129cb160129
DWORD $0x54000202f100813f
DWORD $0x8b08012aaa1f03e9
DWORD $0xcb0902888b00012b
DWORD $0x8b0b032a8b0a02c9
DWORD $0xf10005083840152b
DWORD $0x54ffffa13800154b
DWORD $0x8b1d026017ffffca
DWORD $0x94005ddbaa1403e2
DWORD $0xf100829f17ffffc6
DWORD $0xaa1f03e954000062
DWORD $0x927d068a1400000f
DWORD $0x8b08034b927bea89
DWORD $0x927bea8d8b00036c
DWORD $0xf10081adad7f8560
DWORD $0xad3f85809100816b
DWORD $0x54ffff619100818c
DWORD $0x54fff6a0eb09029f
DWORD $0xaa0903eab4fffc2a
DWORD $0x8b08014b927df289
DWORD $0xcb09014a8b00014c
DWORD $0x8b0c032c8b0b02cb
DWORD $0xb100214afc408560
DWORD $0x54ffffa1fc008580
DWORD $0x54fff4e0eb09029f
DWORD $0xaa1f03e017ffffd3
DWORD $0xa94557f6a9464ff4
DWORD $0xa94367faa9445ff8
DWORD $0xf9400bfda9426ffe
	ADD $112, RSP
WORD $0xd65f03c0
	SUB $112, RSP
WORD $0xaa1f03e0
DWORD $0x91000679aa1f03f8
DWORD $0x9100467b910042da
DWORD $0x3940002814000007
DWORD $0x91000718383d6a68
DWORD $0xeb15031f8b1403a0
DWORD $0x8b1816e954fffd80
DWORD $0x3940612a9100041d
DWORD $0x53047d4ba9405128
DWORD $0x2a0a11698b0802c1
DWORD $0x510005290b090289
DWORD $0xb400029438206a69
DWORD $0x54fffdc0f100069f
DWORD $0x540000e2f1000e9f
DWORD $0x8b1d026939400028
DWORD $0x3940042839000128
DWORD $0x17ffffe839000528
DWORD $0x3940002854000121
DWORD $0x390001288b1d0269
DWORD $0x3900052839400428
DWORD $0x3900092839400828
DWORD $0x8b1d026917ffffdf
DWORD $0xeb14013fcb010129
DWORD $0xf100229f54000262
DWORD $0x8b000329540000c3
DWORD $0xcb080129cb160129
DWORD $0x54000202f100813f
DWORD $0x8b08012aaa1f03e9
DWORD $0xcb0902888b00012b
DWORD $0x8b0b032a8b0a02c9
DWORD $0xf10005083840152b
DWORD $0x54ffffa13800154b
DWORD $0x8b1d026017ffffc9
DWORD $0x94005d6daa1403e2
DWORD $0xf100829f17ffffc5
DWORD $0xaa1f03e954000062
DWORD $0x927d068a1400000f
DWORD $0x8b08034b927bea89
DWORD $0x927bea8d8b00036c
DWORD $0xf10081adad7f8560
DWORD $0xad3f85809100816b
DWORD $0x54ffff619100818c
DWORD $0x54fff680eb09029f
DWORD $0xaa0903eab4fffc2a
DWORD $0x8b08014b927df289
DWORD $0xcb09014a8b00014c
DWORD $0x8b0c032c8b0b02cb
DWORD $0xb100214afc408560
DWORD $0x54ffffa1fc008580
DWORD $0x54fff4c0eb09029f
WORD $0x17ffffd3
	ADD $112, RSP
	// 11176: rtp_ext::form_change::row_len
WORD $0xf81c03fe
	SUB $64, RSP
DWORD $0xa90257f6a9015ffe
DWORD $0xaa0303f4a9034ff4
DWORD $0x72001c1faa0203f5
DWORD $0x5400052012001c96
DWORD $0x54000a0072001c3f
DWORD $0xaa1f03e8aa1f03f3
DWORD $0x54001500eb080281
DWORD $0x394000088b0802a0
DWORD $0xf100083f35000248
DWORD $0xf100043f54000140
DWORD $0xf1000c3f54001420
DWORD $0x3940040854000108
DWORD $0x39400808350000c8
DWORD $0x1400009a35000088
DWORD $0x3400130839400408
DWORD $0x91000400d1000421
DWORD $0xb400128197fff74e
DWORD $0x54001243f100083f
DWORD $0x9100092839400409
DWORD $0x540011c8eb010108
DWORD $0x8b1401083940000a
DWORD $0x54fffc206b16015f
DWORD $0x8b09026934fffc0a
DWORD $0x17ffffdd91000933
DWORD $0x54000bc072001c3f
DWORD $0xaa1f03e8aa1f03f3
DWORD $0x54001000eb080281
DWORD $0x394001098b0802a8
DWORD $0xf100083f35000269
DWORD $0xf100043f54000140
DWORD $0xf1000c3f54000f20
DWORD $0x3940050954000108
DWORD $0x39400909350000c9
DWORD $0x1400007235000089
DWORD $0x34000e0939400509
DWORD $0x91000500d1000421
DWORD $0xb4000d8197fff726
DWORD $0x7103bd3f39400009
DWORD $0x12000d2854000d28
DWORD $0xeb0101481100090a
DWORD $0x53047d2954000ca8
DWORD $0x6b16013f8b140108
DWORD $0x34fffbe954fffc00
DWORD $0x910005338b0a0269
DWORD $0xaa1f03f717ffffdc
DWORD $0xeb080281aa1f03e8
DWORD $0x8b0802a054000540
DWORD $0x3500024839400008
DWORD $0x54000140f100083f
DWORD $0x54000460f100043f
DWORD $0x54000108f1000c3f
DWORD $0x350000c839400408
DWORD $0x3500008839400808
DWORD $0x394004081400001c
DWORD $0xd100042134000348
DWORD $0x97fff6ff91000400
DWORD $0xf100083fb40002c1
DWORD $0x3940040954000283
DWORD $0xeb01010891000928
DWORD $0x3940000a54000208
DWORD $0x6b16015f8b140108
DWORD $0x34fffc0a54fffc20
DWORD $0x7100395f2a1f03e0
DWORD $0x54000128aa1f03f3
DWORD $0x71003d5f5100052a
DWORD $0x8b0902e9540000c8
DWORD $0x17ffffd691000537
DWORD $0xaa1703f352800020
DWORD $0xa9434ff4aa1303e1
DWORD $0xa9415ffea94257f6
	ADD $64, RSP
WORD $0xd65f03c0
	SUB $64, RSP
WORD $0xaa1f03f3
DWORD $0xeb080281aa1f03e8
DWORD $0x8b0802a854000460
DWORD $0x3500026939400109
DWORD $0x54000140f100083f
DWORD $0x54000380f100043f
DWORD $0x54000108f1000c3f
DWORD $0x350000c939400509
DWORD $0x3500008939400909
DWORD $0x3940050914000015
DWORD $0xd100042134000269
DWORD $0x97fff6c991000500
DWORD $0x39400009b40001e1
DWORD $0x540001887103bd3f
DWORD $0x1100090a12000d28
DWORD $0x54000108eb010148
DWORD $0x8b14010853047d29
DWORD $0x54fffc006b16013f
DWORD $0x8b0a027334fffbe9
DWORD $0x5280002017ffffdd
DWORD $0xa9434ff4aa1303e1
DWORD $0xa9415ffea94257f6
	ADD $64, RSP
WORD $0xd65f03c0
	// 11936: rtp_wire::packet::rewriting::has_long_id
WORD $0xf81e03fe
	SUB $32, RSP
DWORD $0x72001c1ff9000bfe
DWORD $0x54000520aa0103e0
DWORD $0x39400008b4000982
DWORD $0xf100085f34000088
DWORD $0x14000047540002c2
DWORD $0x54000140f100085f
DWORD $0x54000860f100045f
DWORD $0x54000108f1000c5f
DWORD $0x350000c839400408
DWORD $0x3500008839400808
DWORD $0x3940040814000037
DWORD $0xd1000441340006a8
DWORD $0x97fff69791000400
DWORD $0xaa0103e2b40006c1
DWORD $0x54000663f100083f
DWORD $0x9100090839400408
DWORD $0x540005e3eb080042
DWORD $0x8b08000039400009
DWORD $0x54fffbe371003d3f
DWORD $0x2a0803e052800028
WORD $0xf9400bfe
	ADD $32, RSP
WORD $0xd65f03c0
	SUB $32, RSP
DWORD $0x39400008b4000482
DWORD $0xf100085f35000288
DWORD $0xf100045f54000140
DWORD $0xf1000c5f540003c0
DWORD $0x3940040854000108
DWORD $0x39400808350000c8
DWORD $0x1400001235000088
DWORD $0x3400020839400408
DWORD $0x91000400d1000441
DWORD $0xb400022197fff672
DWORD $0xaa0103e239400008
DWORD $0x540001a87103bd1f
DWORD $0x1100090912000d08
DWORD $0xeb0900422a1f03e8
DWORD $0x8b09000054000063
DWORD $0x2a0803e0b5fffc62
WORD $0xf9400bfe
	ADD $32, RSP
WORD $0xd65f03c0
	SUB $32, RSP
DWORD $0x2a0803e02a1f03e8
WORD $0xf9400bfe
	ADD $32, RSP
WORD $0xd65f03c0
	// 12284: rtp_wire::packet::resizing::move_bytes
WORD $0xeb010068
DWORD $0xd65f03c054000041
DWORD $0xf100211f54000149
DWORD $0xf100111f54000240
DWORD $0xeb01004254000341
DWORD $0x8b01000154ffff20
DWORD $0x14005c2991001020
DWORD $0xf100213fcb030029
DWORD $0xf100113f540001a0
DWORD $0xeb01004254000361
DWORD $0x8b01000154fffde0
DWORD $0x14005c1fd1001020
DWORD $0x54fffd40eb010042
DWORD $0x910020208b010001
DWORD $0xeb01004214005c1a
DWORD $0x8b01000154fffca0
DWORD $0x14005c15d1002020
DWORD $0x54fffc00eb010049
DWORD $0x540005e3f100213f
DWORD $0xf100815fcb03002a
DWORD $0xf100813f54000583
DWORD $0xaa1f03ea540001c2
DWORD $0xeb0100491400001a
DWORD $0xf100213f54fffaa0
DWORD $0x54000943aa1f03ea
DWORD $0x54000903f100811f
DWORD $0x54000522f100813f
DWORD $0x14000037aa1f03ea
DWORD $0x927d052b8b00004c
DWORD $0xd100418c927be92a
DWORD $0xad7f8181927be92d
DWORD $0xd10081ad8b08018e
DWORD $0xad3f81c1d100818c
DWORD $0xeb0a013fb5ffff6d
DWORD $0xb400080b54fff7e0
DWORD $0x927df12bcb0a004c
DWORD $0x9240092c8b00018d
DWORD $0xd10021adcb0b014a
DWORD $0xb100214afd4001a0
DWORD $0xd10021adfc2869a0
DWORD $0xeb0b013f54ffff81
DWORD $0x54fff600aa0c03e9
DWORD $0x8b00002a8b000068
DWORD $0xd100054ad1000508
DWORD $0x3869694caa0903eb
DWORD $0x382b690cf1000529
DWORD $0x17ffffa654ffff81
DWORD $0x8b00002c8b00006b
DWORD $0x927be92a927d0528
DWORD $0x9100418c9100416b
DWORD $0xad7f8580927be92d
DWORD $0x9100818cf10081ad
DWORD $0x9100816bad3f8560
DWORD $0xeb0a013f54ffff61
DWORD $0xb40001c854fff2e0
DWORD $0x927df12aaa0a03e8
DWORD $0x8b01010c8b03010b
DWORD $0x8b0b000bcb0a0108
DWORD $0xfc4085808b0c000c
DWORD $0xfc008560b1002108
DWORD $0xeb0a013f54ffffa1
DWORD $0x8b01014b54fff120
DWORD $0xcb0201688b030149
DWORD $0x8b0b000a8b090009
DWORD $0xb10005083840154b
DWORD $0x54ffffa33800152b
DWORD $0x9240112917ffff7f
WORD $0x17ffffce
	// 12820: rtp_ext::gathering::gather_around
WORD $0xf81b03fe
	SUB $80, RSP
WORD $0xf9000bfe
DWORD $0xa90357f6a9025ff8
DWORD $0xaa0303f5a9044ff4
DWORD $0x2a0503f32a0503e3
DWORD $0xaa0103f6aa0403f4
DWORD $0x9400000f2a0003f7
DWORD $0xcb150282aa0003f8
DWORD $0x2a1703e08b1502c1
DWORD $0x940000092a1303e3
DWORD $0xaa1803e0aa0003e1
DWORD $0xa94357f6a9444ff4
DWORD $0xf9400bfea9425ff8
	ADD $80, RSP
WORD $0xd65f03c0
	// 12928: rtp_ext::gathering::gather
WORD $0xf81b03fe
	SUB $80, RSP
DWORD $0xa9025ff8a90167fe
DWORD $0xa9044ff4a90357f6
DWORD $0xaa0103f5aa0203f4
DWORD $0x12001c7672001c1f
DWORD $0x910042b754000c20
DWORD $0xaa1f03e8aa1f03f3
DWORD $0x8b1402b98b1402f8
DWORD $0x54001700eb080281
DWORD $0x394000088b0802a0
DWORD $0xf100083f35000248
DWORD $0xf100043f54000140
DWORD $0xf1000c3f54001620
DWORD $0x3940040854000108
DWORD $0x39400808350000c8
DWORD $0x140000aa35000088
DWORD $0x3400150839400408
DWORD $0x91000400d1000421
DWORD $0xb400148197fff596
DWORD $0x54001443f100083f
DWORD $0x910009483940040a
DWORD $0x540013c8eb010108
DWORD $0x8b14010839400009
DWORD $0x54fffc206b16013f
DWORD $0xd100092bcb0a0109
DWORD $0x54000282eb0b027f
DWORD $0x54000240eb0b010b
DWORD $0x540000a3f100217f
DWORD $0x8b01018ccb14026c
DWORD $0x54000202f100819f
DWORD $0xcb0c014aaa1f03ec
DWORD $0x8b0c032c8b13018b
DWORD $0x8b0b02ab9100094a
DWORD $0x3840158dcb01018c
DWORD $0x3800156df100054a
DWORD $0x8b13010a54ffffa1
DWORD $0x91000933cb090149
DWORD $0xf100817f17ffffc6
DWORD $0xaa1f03ec54000062
DWORD $0x927d056d1400000f
DWORD $0xcb01030e927be96c
DWORD $0x927be9708b1302ef
DWORD $0xf1008210ad7f85c0
DWORD $0xad3f85e0910081ce
DWORD $0x54ffff61910081ef
DWORD $0x54fffd80eb0c017f
DWORD $0xaa0c03edb4fffc2d
DWORD $0x8b1301ae927df16c
DWORD $0xcb0c01ad8b0d032f
DWORD $0xcb0101ef8b0e02ae
DWORD $0xb10021adfc4085e0
DWORD $0x54ffffa1fc0085c0
DWORD $0x54fffbc0eb0c017f
DWORD $0xaa1f03e917ffffd3
DWORD $0x8b1402b7aa1f03f3
DWORD $0x54000b40eb090281
DWORD $0x394001098b0902a8
DWORD $0x3103815f5103c12a
DWORD $0x34000129540000a2
DWORD $0x540003697103bd3f
DWORD $0x92400d2814000051
DWORD $0xeb01010a91000908
DWORD $0x14000019540002c8
DWORD $0x54000140f100083f
DWORD $0x54000900f100043f
DWORD $0x54000108f1000c3f
DWORD $0x350000c939400509
DWORD $0x3500008939400909
DWORD $0x3940050914000041
DWORD $0xd1000421340007e9
DWORD $0x97fff52d91000500
DWORD $0x39400009b4000761
DWORD $0x540007087103bd3f
DWORD $0x1100090812000d28
DWORD $0x54000688eb01010a
DWORD $0x8b14014953047d2b
DWORD $0x54fffaa06b16017f
DWORD $0xcb08012c34fffa8b
DWORD $0x54000202eb0c027f
DWORD $0x540000a3f100111f
DWORD $0xcb09016b8b08026b
DWORD $0x54000182f100417f
DWORD $0x8b13016caa1f03eb
DWORD $0x8b0a02eacb08016b
DWORD $0x386b694d8b0c02ac
DWORD $0x3800158db100056b
DWORD $0x8b08027354ffffa3
DWORD $0xf100411f17ffffc0
DWORD $0xaa1f03eb54000062
DWORD $0x927c010b14000008
DWORD $0xeb0b011f3cec6aa0
DWORD $0x54fffec03cb36aa0
DWORD $0xb4fffd8c927e050c
DWORD $0x927e090baa0b03ec
DWORD $0x8b13018dcb08014f
DWORD $0xcb0b018c8b0c02ee
DWORD $0x8b0f01ce8b0d02ad
DWORD $0xb100118cb84045cf
DWORD $0x54ffffa1b80045af
DWORD $0x54fffcc0eb0b011f
DWORD $0xaa1303e017ffffdd
DWORD $0xa94357f6a9444ff4
DWORD $0xa94167fea9425ff8
	ADD $80, RSP
WORD $0xd65f03c0
	// 13760: rtp_ext::form_change::change_rows
WORD $0xf81c03fe
	SUB $64, RSP
DWORD $0xa90257f6a9015ffe
DWORD $0xcb050048a9034ff4
DWORD $0xaa0203f5aa0503f3
DWORD $0xeb04011faa0103f4
DWORD $0x540001c92a0003f6
DWORD $0xf100227fb40009f3
DWORD $0x54000803aa1303ea
DWORD $0xaa1303ea8b040269
DWORD $0xf100813fcb150129
DWORD $0xf100827f54000763
DWORD $0xaa1f03e954000302
DWORD $0xb400085314000027
DWORD $0x540000a3f100227f
DWORD $0xcb0902a98b040269
DWORD $0x54000162f100813f
DWORD $0x8b04012baa1f03e9
DWORD $0x8b15028acb130129
DWORD $0x3840156c8b0b028b
DWORD $0xb10005293829694c
DWORD $0x1400003254ffffa3
DWORD $0x54000f02f100827f
DWORD $0x14000086aa1f03e9
DWORD $0x8b1402ac8b04026b
DWORD $0x8b14016b927d066a
DWORD $0xd100418c927bea69
DWORD $0x927bea6dd100416b
DWORD $0xd10081adad7f8161
DWORD $0xad3f8181d100816b
DWORD $0xb5ffff6dd100818c
DWORD $0x540003c0eb09027f
DWORD $0xcb09008cb40010ca
DWORD $0x927df26bcb0902ad
DWORD $0x8b1401ad8b14018c
DWORD $0xd100218c92400a6a
DWORD $0xcb0b0129d10021ad
DWORD $0xb1002129fc736980
DWORD $0xfc1f85a0d100218c
DWORD $0xeb0b027f54ffff81
DWORD $0x8b150149540001a0
DWORD $0x8b04014caa3303eb
DWORD $0x8b14018c8b09016b
DWORD $0x8b0b028acb0a03e9
DWORD $0x385ff56cd100058b
DWORD $0x381ff54cb1000529
DWORD $0xeb03010954ffffa3
DWORD $0xb4000683540006a0
DWORD $0xaa0303eaf100207f
DWORD $0x8b03026a54000543
DWORD $0xf100815fcb15014a
DWORD $0x540004a3aa0303ea
DWORD $0x54000062f100807f
DWORD $0x14000011aa1f03eb
DWORD $0x8b14010d8b14006c
DWORD $0x927be86b927d046a
DWORD $0xd10041acd1004188
DWORD $0xad7f8101927be86d
DWORD $0xd1008108d10081ad
DWORD $0xd100818cad3f8181
DWORD $0xeb0b007fb5ffff6d
DWORD $0xb400092a54000320
DWORD $0x927df0688b13016a
DWORD $0xcb0a02accb0b028d
DWORD $0xcb08016b9240086a
DWORD $0xd10021ac8b14018e
DWORD $0xfc636980d10021cd
DWORD $0xd100218cb100216b
DWORD $0x54ffff81fc1f85a0
DWORD $0x54000100eb08007f
DWORD $0xd10005088b140148
DWORD $0xd100054a3940010b
DWORD $0xd10005083829690b
DWORD $0xcb1302a2b5ffff8a
DWORD $0xaa1403e12a1603e0
DWORD $0xaa0003f794000033
DWORD $0x8b000281cb0002a2
DWORD $0xaa1303e32a1603e0
DWORD $0xa9434ff49400002d
DWORD $0xa94257f6aa0003e1
DWORD $0xa9415ffeaa1703e0
	ADD $64, RSP
WORD $0xd65f03c0
	SUB $64, RSP
WORD $0x8b14010b
DWORD $0x927d066a8b14008c
DWORD $0x9100416b927bea69
DWORD $0x927bea6d9100418c
DWORD $0xf10081adad7f8580
DWORD $0xad3f85609100818c
DWORD $0x54ffff619100816b
DWORD $0x54fff540eb09027f
DWORD $0xaa0903eab4ffedea
DWORD $0x8b15014b927df269
DWORD $0xcb09014a8b04014c
DWORD $0x8b0c028ccb13016b
DWORD $0xfc4085808b0b028b
DWORD $0xfc008560b100214a
DWORD $0xeb09027f54ffffa1
DWORD $0x17ffff6054fff360
DWORD $0x17ffffc79240106a
DWORD $0x17ffff8a9240126a
	ADD $64, RSP
	// 14556: rtp_ext::form_change::change_row
WORD $0xf81a03fe
	SUB $96, RSP
WORD $0xa9016ffe
DWORD $0xa9035ff8a90267fa
DWORD $0xa9054ff4a90457f6
DWORD $0x72001c1faa0203f4
DWORD $0xaa1f03f3aa0103f5
DWORD $0xb4002f6354001d20
DWORD $0x910006968b150289
DWORD $0x910006b7cb030288
DWORD $0xd100193991000938
DWORD $0x8b1602bbd1001eba
DWORD $0x53047dae1400000a
DWORD $0xcb0b03e3eb03015f
DWORD $0xb0d012d2a0d11cd
DWORD $0x38336aaa510005aa
DWORD $0x54002d208b090193
DWORD $0x394000088b0802a0
DWORD $0xf100087f34000088
DWORD $0x14000163540002c2
DWORD $0x54000140f100087f
DWORD $0x54002be0f100047f
DWORD $0x54000108f1000c7f
DWORD $0x350000c839400408
DWORD $0x3500008839400808
DWORD $0x3940040814000158
DWORD $0xd100046134002ac8
DWORD $0x97fff3ef91000400
DWORD $0xaa0103e3b4002a41
DWORD $0x540029e3f100083f
DWORD $0x9100092a39400409
DWORD $0x54002968eb03014b
DWORD $0x9100066c8b140168
DWORD $0xcb09010e3940000d
DWORD $0x540001c9eb0e019f
DWORD $0x7100213f34fffa69
DWORD $0x54000e63aa0903ef
DWORD $0xcb0f02cf8b13006f
DWORD $0xaa0903eff10081ff
DWORD $0x7100813f54000dc3
DWORD $0xaa1f03ee54000322
DWORD $0x34fff8c91400005b
DWORD $0x540000a37100213f
DWORD $0xcb0f028f8b13006f
DWORD $0x54000189b10085ff
DWORD $0x8b1301cfaa1f03ee
DWORD $0xcb0e012ecb0301d0
DWORD $0x8b1003108b0f02ef
DWORD $0xf10005ce38401611
DWORD $0x54ffffa1380015f1
DWORD $0x7100813f17ffffb5
DWORD $0xaa1f03ee54000c02
DWORD $0x8b0e02af1400007f
DWORD $0x8b0c02b0d1000531
DWORD $0x927b092e8b1101e0
DWORD $0x3cdf10008b110211
DWORD $0xf10081df3cde1001
DWORD $0x3c9e12213c9f1220
DWORD $0xd1008531540006a0
DWORD $0x8b1101e0f10101df
DWORD $0x3cdf10008b110211
DWORD $0x3c9f12203cde1001
DWORD $0x540005803c9e1221
DWORD $0xf10181dfd1010531
DWORD $0x8b1102118b1101e0
DWORD $0x3cde10013cdf1000
DWORD $0x3c9e12213c9f1220
DWORD $0xd101853154000460
DWORD $0x8b1101e0f10201df
DWORD $0x3cdf10008b110211
DWORD $0x3c9f12203cde1001
DWORD $0x540003403c9e1221
DWORD $0xf10281dfd1020531
DWORD $0x8b1102118b1101e0
DWORD $0x3cde10013cdf1000
DWORD $0x3c9e12213c9f1220
DWORD $0xd102853154000220
DWORD $0x8b1101e0f10301df
DWORD $0x3cdf10008b110211
DWORD $0x3c9f12203cde1001
DWORD $0x540001003c9e1221
DWORD $0x8b1101efd1030531
DWORD $0x3cdf11e08b110210
DWORD $0x3c9f12003cde11e1
DWORD $0xeb0901df3c9e1201
DWORD $0x927d052f54ffede0
DWORD $0xcb030131b400092f
DWORD $0x927d11308b090260
DWORD $0xcb0e0000cb0e0231
DWORD $0x8b1103319240092f
DWORD $0xcb1001ce8b000340
DWORD $0xb10021cefc5f8620
DWORD $0x54ffffa1fc1f8400
DWORD $0x54ffebc0eb09021f
DWORD $0xcb0301f18b1301f0
DWORD $0x8b1002afcb0f03ee
DWORD $0x385ff6118b110370
DWORD $0x381ff5f1b10005ce
DWORD $0x17ffff5454ffffa3
DWORD $0x927b092e8b0e02af
DWORD $0xad4005e08b0c02b0
DWORD $0xad000600f10081df
DWORD $0xad4105e0540002e0
DWORD $0xad010600f10101df
DWORD $0xad4205e054000260
DWORD $0xad020600f10181df
DWORD $0xad4305e0540001e0
DWORD $0xad030600f10201df
DWORD $0xad4405e054000160
DWORD $0xad040600f10281df
DWORD $0xad4505e0540000e0
DWORD $0xad050600f10301df
DWORD $0xad4605e054000060
DWORD $0xeb0901dfad060600
DWORD $0x927d052f54ffe6a0
DWORD $0xaa0e03efb4ffeeaf
DWORD $0x8b1301f0927d112e
DWORD $0xcb0e01efcb0301f1
DWORD $0x8b1103118b1002f0
DWORD $0xb10021effc408620
DWORD $0x54ffffa1fc008600
DWORD $0x54ffe4c0eb0901df
DWORD $0x9240112f17ffff67
DWORD $0xb400126317ffffc6
DWORD $0xcb030288910006b6
DWORD $0x8b1402d891000ab7
DWORD $0x1400000b8b1402b9
DWORD $0x3d8001c03dc001e0
DWORD $0x8b1302ae53047d29
DWORD $0xcb0c03e3eb03015f
DWORD $0x390005cb8b0d0173
DWORD $0x54001060390001c9
DWORD $0x394001098b0802a8
DWORD $0xf100087f35000289
DWORD $0xf100047f54000140
DWORD $0xf1000c7f54000f80
DWORD $0x3940050954000108
DWORD $0x39400909350000c9
DWORD $0x1400007535000089
DWORD $0x34000e6939400509
DWORD $0x91000500d1000461
DWORD $0xb4000de197fff30c
DWORD $0xaa0103e339400009
DWORD $0x54000d687103bd3f
DWORD $0x11000a0a12000d30
DWORD $0x54000ce8eb03014c
DWORD $0x8b140188d100054b
DWORD $0xcb0b010e91000a6d
DWORD $0x8b0e02afeb0e01bf
DWORD $0x540000a98b0d02ae
DWORD $0x540002e271000e1f
DWORD $0x1400001ad1000551
DWORD $0x540000c371000e1f
DWORD $0x8b130231cb140071
DWORD $0xf100423f91000631
DWORD $0xaa1f03f054000362
DWORD $0x8b13020f12000d2e
DWORD $0xcb030210cb1001ce
DWORD $0x910005ce8b0f02ef
DWORD $0x384016118b100310
DWORD $0x380015f1f10005ce
DWORD $0x17ffffbd54ffffa1
DWORD $0xcb1402318b130071
DWORD $0xd1000551b100463f
DWORD $0x8b1302ce540003a9
DWORD $0xaa1103f0cb03032f
DWORD $0xf1000631387169e0
DWORD $0x54ffff81383069c0
DWORD $0x71003e1f17ffffb0
DWORD $0x927ef57054fff580
DWORD $0xf100121fb94001f1
DWORD $0x54000160b90001d1
DWORD $0xf100221fb94005f1
DWORD $0x540000e0b90005d1
DWORD $0xf100321fb94009f1
DWORD $0x54000060b90009d1
DWORD $0xb9000dcfb9400def
DWORD $0x54fff3a0eb10017f
DWORD $0x71003e1f17ffffd4
DWORD $0x8b1001ef540000c1
DWORD $0x3cdf11e08b1001ce
DWORD $0x17ffff953c9f11c0
DWORD $0x927ef5718b1001e0
DWORD $0xb85fd0008b1001d0
DWORD $0xb81fd200f100123f
DWORD $0xd100195054000280
DWORD $0x8b1001e0f100223f
DWORD $0xb85fd0008b1001d0
DWORD $0x540001a0b81fd200
DWORD $0xf100323fd1002950
DWORD $0x8b1001d08b1001e0
DWORD $0xb81fd200b85fd000
DWORD $0xd1003950540000c0
DWORD $0x8b1001ce8b1001ef
DWORD $0xb81fd1cfb85fd1ef
DWORD $0x54ffef20eb11017f
DWORD $0x17ffffc092400571
DWORD $0xa9454ff4aa1303e0
DWORD $0xa9435ff8a94457f6
DWORD $0xa9416ffea94267fa
	ADD $96, RSP
WORD $0xd65f03c0
	// 16152: rtp_ext::rewriting::put_between
WORD $0xf81d03fe
	SUB $48, RSP
DWORD $0xa9024ff4f9000bfe
DWORD $0x394000abaa0203e9
DWORD $0x72001c1ff9400ca2
DWORD $0x394020aa52800028
DWORD $0x7100057f9a880508
DWORD $0x9a9f010c8b080048
DWORD $0x8b090193f94008a8
DWORD $0x54000182eb13006d
DWORD $0xf100209fb4000a64
DWORD $0x54000883aa0403ee
DWORD $0xaa0403eef10081bf
DWORD $0xf100809f54000823
DWORD $0xaa1f03ed54000342
DWORD $0xb40009041400002b
DWORD $0x540000a3f100209f
DWORD $0xcb0301ad8b09018d
DWORD $0x540001a2f10081bf
DWORD $0x8b0d018eaa1f03ed
DWORD $0x8b0301b08b09002f
DWORD $0x8b0e01edcb0d008c
DWORD $0x384015cf8b10002e
DWORD $0x380015aff100058c
DWORD $0x1400003654ffffa1
DWORD $0x54001222f100809f
DWORD $0x140000a0aa1f03ed
DWORD $0x8b0401908b03008f
DWORD $0x8b0101ef8b010131
DWORD $0x927d048e8b110210
DWORD $0xd10041ef927be88d
DWORD $0x927be891d1004210
DWORD $0xd1008231ad7f81e1
DWORD $0xad3f8201d10081ef
DWORD $0xb5ffff71d1008210
DWORD $0x54000400eb0d009f
DWORD $0x8b09018eb40017ce
DWORD $0x927df08fcb0d0070
DWORD $0x8b010210cb0d01d1
DWORD $0x8b0102319240088e
DWORD $0xcb0f01add1002210
DWORD $0xfc646a00d1002231
DWORD $0xd1002210b10021ad
DWORD $0xd1002231fc246a20
DWORD $0xeb0f009f54ffff61
DWORD $0x8b0e018c540001a0
DWORD $0x8b0301cf8b01012d
DWORD $0x8b0101ef8b0d018d
DWORD $0xd10005adcb0e03ec
DWORD $0x385ff5cfd10005ee
DWORD $0x381ff5afb100058c
DWORD $0x7100057f54ffffa3
DWORD $0x72001c1f540009a1
DWORD $0x8b09002b54000100
DWORD $0x5280004a3900016a
DWORD $0x8b09014b39000562
DWORD $0x1400002fb5000142
DWORD $0x2a0a116a53047d4b
DWORD $0x5100054a0b02014a
DWORD $0x5280002a3829682a
DWORD $0xb40004e28b09014b
DWORD $0x54000121f100045f
DWORD $0x382b682839400108
DWORD $0xa9424ff48b040260
WORD $0xf9400bfe
	ADD $48, RSP
WORD $0xd65f03c0
	SUB $48, RSP
DWORD $0x54000188f100085f
DWORD $0x8b0b002a39400109
DWORD $0x3940050839000149
DWORD $0x8b04026039000548
DWORD $0xf9400bfea9424ff4
	ADD $48, RSP
WORD $0xd65f03c0
	SUB $48, RSP
WORD $0xf1000c5f
DWORD $0x39400109540001c1
DWORD $0x390001498b0b002a
DWORD $0x3900054939400509
DWORD $0x3900094839400908
DWORD $0xa9424ff48b040260
WORD $0xf9400bfe
	ADD $48, RSP
WORD $0xd65f03c0
	SUB $48, RSP
DWORD $0xcb08000b8b0b0020
DWORD $0x54000302eb02017f
DWORD $0x540000c3f100205f
DWORD $0x8b01016b8b09014b
DWORD $0xf100817fcb08016b
DWORD $0xaa1f03eb54000742
DWORD $0x8b09002c8b0a016a
DWORD $0x8b0b0108cb0b0049
DWORD $0x3840150b8b0a018a
DWORD $0x3800154bf1000529
DWORD $0x8b04026054ffffa1
DWORD $0xf9400bfea9424ff4
	ADD $48, RSP
WORD $0xd65f03c0
	SUB $48, RSP
WORD $0xaa0803e1
DWORD $0x940057b3aa0403f4
DWORD $0xa9424ff48b140260
WORD $0xf9400bfe
	ADD $48, RSP
WORD $0xd65f03c0
	SUB $48, RSP
DWORD $0x8b0100708b09018f
DWORD $0x8b0101ef927d048e
DWORD $0x91004210927be88d
DWORD $0x927be891910041ef
DWORD $0xf1008231ad7f8600
DWORD $0xad3f85e091008210
DWORD $0x54ffff61910081ef
DWORD $0x54fff280eb0d009f
DWORD $0xaa0d03eeb4ffea6e
DWORD $0x8b090030927df08d
DWORD $0x8b0301d18b0e018f
DWORD $0x8b0f020fcb0d01ce
DWORD $0xfc4086008b110030
DWORD $0xfc0085e0b10021ce
DWORD $0xeb0d009f54ffffa1
DWORD $0x17ffff4454fff0a0
DWORD $0x54000062f100805f
DWORD $0x14000011aa1f03eb
DWORD $0x927d044c8b09014d
DWORD $0x8b0101ae927be84b
DWORD $0x927be84f9100410d
DWORD $0xad7f85a0910041ce
DWORD $0x910081adf10081ef
DWORD $0x910081cead3f85c0
DWORD $0xeb0b005f54ffff61
DWORD $0xb4fff6ac54fff7e0
DWORD $0x927df04baa0b03ed
DWORD $0x8b0a01ae8b09002f
DWORD $0x8b0d010dcb0b01ac
DWORD $0xfc4085a08b0e01ee
DWORD $0xfc0085c0b100218c
DWORD $0xeb0b005f54ffffa1
DWORD $0x17ffffa754fff620
DWORD $0x17ffff549240108e
	ADD $48, RSP
	// 17204: rtp_c::growing::put_status_of
WORD $0x12001c08
DWORD $0x5400012d71000d1f
DWORD $0x540002ad7100151f
DWORD $0x540002e07100191f
DWORD $0x540002e171001d1f
DWORD $0xd65f03c0528001e0
DWORD $0x528001207100051f
DWORD $0x340001485400008c
DWORD $0xd65f03c0528001a0
DWORD $0x540000c07100091f
WORD $0x92401c28
	MOVD $rtp_wire_constants<>+2448(SB), R9
WORD $0x91000129
DWORD $0xd65f03c0b8687920
DWORD $0x540000e17100111f
DWORD $0xd65f03c0528000a0
DWORD $0xd65f03c0528001c0
DWORD $0xd65f03c052800100
DWORD $0xd65f03c052800200
	// 17344: rtp_wire::packet::rtp_packet_buf::RtpPacketBuf::change_form
WORD $0xf81603fe
	SUB $160, RSP
DWORD $0xa9056ffef90023fd
DWORD $0xa9075ff8a90667fa
DWORD $0xa9094ff4a90857f6
DWORD $0xf940003539408028
DWORD $0x7100051faa0003f3
DWORD $0x3940843854000841
DWORD $0x7100031f12000049
DWORD $0x6b09011f1a9f17e8
DWORD $0x394002a8540007c1
DWORD $0xb9004be2f9400c29
DWORD $0xd37e0d08f90013e8
DWORD $0x91004108f90017e8
DWORD $0xcb08013a8b0802a0
DWORD $0x34000798a90327e0
DWORD $0xaa1f03f4b4000eba
DWORD $0x39400008aa1a03f6
DWORD $0xaa1603e8340000a8
DWORD $0x54000322f1000adf
DWORD $0xf1000adf1400007f
DWORD $0xf10006df54000140
DWORD $0xf1000edf54000f60
DWORD $0x3940040854000108
DWORD $0x39400808350000c8
DWORD $0x1400007335000088
DWORD $0x34000d2839400408
DWORD $0x91000400aa0103f7
DWORD $0x97fff133d10006c1
DWORD $0xb9404be2b4000fa1
DWORD $0xaa1703e1aa0103e8
DWORD $0x54000d03f100091f
DWORD $0x9100092a39400409
DWORD $0x54000c83eb0a0108
DWORD $0x8b0a00003940000b
DWORD $0xaa0803f63500008b
DWORD $0x1400005eb5fffb68
DWORD $0xaa1f03f68b090289
DWORD $0xb4000b4891000934
DWORD $0x17ffffd4aa0803f6
DWORD $0x37200088394002a8
DWORD $0x7900127f3900027f
DWORD $0x5280002814000005
DWORD $0x3900026852800089
DWORD $0xf9000a7f79001269
DWORD $0xb400075a1400016a
DWORD $0xaa1a03e8aa1f03f4
DWORD $0x39400009aa0803f6
DWORD $0x3103811f5103c128
DWORD $0x34000289540000c2
DWORD $0x7103bd3faa1603e8
DWORD $0x14000040540000e9
DWORD $0x9100090a92400d28
DWORD $0x540004a2eb0a02c8
DWORD $0x12000d2aaa1603e8
DWORD $0xeb0a01081100094a
DWORD $0x7100413f540006e3
DWORD $0x540003c28b0a0000
DWORD $0xb5fffd48aa0803f6
DWORD $0xf1000adf14000031
DWORD $0xf10006df54000140
DWORD $0xf1000edf540005a0
DWORD $0x3940040854000108
DWORD $0x39400808350000c8
DWORD $0x1400002535000088
DWORD $0x3400036839400408
DWORD $0x91000400aa0103f7
DWORD $0x97fff0e5d10006c1
DWORD $0x39400009b40005e1
DWORD $0xaa0103e8b9404be2
DWORD $0x7103bd3faa1703e1
DWORD $0x1400001854fffbe9
DWORD $0xaa1f03f68b0a0000
DWORD $0xb5fff9688b140154
DWORD $0xaa1f03f414000013
DWORD $0x6b22031faa1f03f6
DWORD $0xcb1f035bf940083d
DWORD $0x1a9f07f7fa401be4
DWORD $0x1400001054000460
DWORD $0x6b22031f52800056
DWORD $0xcb16035bf940083d
DWORD $0x1a9f07f7fa401a84
DWORD $0x1400000854000360
DWORD $0x6b22031f52800076
DWORD $0xcb16035bf940083d
DWORD $0x1a9f07f7fa401a84
DWORD $0xaa0103f954000260
DWORD $0xf9401be22a0203e1
DWORD $0x2a1803e0cb160343
DWORD $0x97fff9492a1f03e4
DWORD $0xaa1903e1aa0103e8
DWORD $0xb9404be21400000b
DWORD $0x6b22031faa1703e1
DWORD $0xcb16035bf9400afd
DWORD $0x1a9f07f7fa401a84
DWORD $0x5280002054fffde1
DWORD $0x91000d08aa1403e8
DWORD $0x927ef50812001c09
DWORD $0x9a88834beb08035f
DWORD $0x54000ea17100053f
DWORD $0xeb08017f321e3fe8
DWORD $0xaa1f03ec540000a9
DWORD $0x5280002b528000ea
DWORD $0xf94017e8140000f2
DWORD $0xf9400429f9401fea
DWORD $0x8b0b032811003119
DWORD $0xcb0a03a891001103
DWORD $0xeb0c013f8b08006c
DWORD $0x5280010a54000082
DWORD $0x140000e55280002b
DWORD $0xaa0a03e1a90107ec
DWORD $0xaa1d03e2aa1503e0
DWORD $0x97fffa30f9001beb
DWORD $0x8b1902a9f9401be2
DWORD $0x12181d08531a6448
DWORD $0xb9404be82a42290a
DWORD $0x7900052a6b28031f
DWORD $0x394002aa54000120
DWORD $0x5280020b72001d1f
DWORD $0x321c014a1284282c
DWORD $0x390002aa1a8b018b
DWORD $0x9100113d7900012b
DWORD $0xeb1b029fb40000ba
DWORD $0xaa1f03e5540001c1
DWORD $0xf9400fe914000016
DWORD $0x54000b0df1000454
DWORD $0x540013a0f100085f
DWORD $0x540013a0f1000c5f
DWORD $0x540013c1f100105f
DWORD $0x140000b2b90003bf
DWORD $0xcb160343cb160342
DWORD $0xaa1d03e12a1803e0
DWORD $0x2a1f03e5aa1a03e4
DWORD $0xf9401be297fffa8d
DWORD $0xaa0103e5aa0003f4
DWORD $0x340001d7f9401fef
DWORD $0xaa1d03e12a1803e0
DWORD $0xaa1b03e4aa1403e3
DWORD $0xaa0103e597fffb6e
DWORD $0xb4000821aa0003f4
DWORD $0xf9400fe9b9404be8
DWORD $0xf9401be2aa1403fb
DWORD $0xeb1b029f1400002d
DWORD $0xb9404be854000509
DWORD $0xb4000ce5f9400fe9
DWORD $0x54000103f10020bf
DWORD $0x8b16028af94017eb
DWORD $0xcb0a016acb0b01eb
DWORD $0xf100815fd100414a
DWORD $0xaa0503eb54001462
DWORD $0x8b0f016cf94013ea
DWORD $0x8b0c01acaa3603ed
DWORD $0x8b0c02ac92400d4a
DWORD $0x8b15014e8b0a096a
DWORD $0x91003dcbcb0b03ea
DWORD $0xb100054a385ff58d
DWORD $0xd100056b3834696d
DWORD $0x1400004d54ffff83
DWORD $0x2a1803e0f9401be1
DWORD $0x97fff97baa1a03e2
DWORD $0x7100001f528000a8
DWORD $0x1a88150aaa1f03ec
DWORD $0x1400007b5280002b
DWORD $0xf9400fe9b9404be8
DWORD $0xf10020bfb4000805
DWORD $0x54000643aa1f03ea
DWORD $0xf100817fcb1b028b
DWORD $0xf10080bf540005e3
DWORD $0xaa1f03ea54000182
DWORD $0xb4000c421400001c
DWORD $0x54000941f100045f
DWORD $0x1400005e390003bf
DWORD $0xf9400fe9b9404be8
DWORD $0x1400002df9401be2
DWORD $0x927d04abf94017ea
DWORD $0x927be8aa8b15014c
DWORD $0x8b0c036e8b0c028d
DWORD $0x910081cd910081ac
DWORD $0xad7f85a0927be8ae
DWORD $0x910081adf10081ce
DWORD $0x9100818cad3f8580
DWORD $0xeb0a00bf54ffff61
DWORD $0xb400020b54000380
DWORD $0xf94013eaaa0a03eb
DWORD $0x8b0a096c92400d4a
DWORD $0xcb0a016b927df0aa
DWORD $0x9100418c8b15018c
DWORD $0xb100216bfc7b6980
DWORD $0x9100218cfc346980
DWORD $0xeb0a00bf54ffff81
DWORD $0xf94013eb54000180
DWORD $0x8b0b094b92400d6b
DWORD $0x8b15016bcb0a00aa
DWORD $0x387b696c9100416b
DWORD $0x3834696cf100054a
DWORD $0x54ffff819100056b
DWORD $0xeb0a004b8b05028a
DWORD $0xf100057454000569
DWORD $0xf100097f5400012d
DWORD $0xf1000d7f54000320
DWORD $0xf100117f54000320
DWORD $0xb82a6bbf54000361
DWORD $0xb400040b14000021
DWORD $0x540002c1f100057f
DWORD $0x1400001c382a6bbf
DWORD $0x1400001a790003bf
DWORD $0x790003bf39000bbf
DWORD $0xaa1d03e014000017
DWORD $0xaa1403e22a1f03e1
DWORD $0xf9400fe9940055f4
DWORD $0x38346bbfb9404be8
DWORD $0x782a6bbf1400000f
DWORD $0x8b0a03aa1400000d
DWORD $0x7900015f3900095f
DWORD $0x8b0a03b514000009
DWORD $0xaa1403e22a1f03e1
DWORD $0x940055e5aa1503e0
DWORD $0xb9404be8f9400fe9
DWORD $0xa941352c38346abf
DWORD $0xf9400bef2a1f03eb
DWORD $0x5280002e2a1f03ea
DWORD $0xcb0c01ec3900812e
DWORD $0x8b0d018c39008528
DWORD $0xaa1f03eca901312f
DWORD $0x3900226a3900026b
DWORD $0xf9000a6c3900267f
DWORD $0xf94023fda9494ff4
DWORD $0xa9475ff8a94857f6
DWORD $0xa9456ffea94667fa
	ADD $160, RSP
WORD $0xd65f03c0
	SUB $160, RSP
WORD $0xf10080bf
DWORD $0xaa1f03ea54000062
DWORD $0x8b0f00ac14000015
DWORD $0x8b05028df94017ee
DWORD $0x927d04abcb16018c
DWORD $0x8b15018c927be8aa
DWORD $0xd100418c8b0e02ae
DWORD $0x927be8ae8b0d01cd
DWORD $0xf10081cead7f8181
DWORD $0xad3f81a1d100818c
DWORD $0x54ffff61d10081ad
DWORD $0x54fff4a0eb0a00bf
DWORD $0xf94013ebb40002eb
DWORD $0x927df0accb1601ed
DWORD $0x92400d6bcb0a01ad
DWORD $0x8b0b0a8b8b1501ad
DWORD $0xcb0a016ed10021ad
DWORD $0xcb0c014a924008ab
DWORD $0x910021ce8b1501ce
DWORD $0xb100214afc6569a0
DWORD $0xfc2569c0d10021ad
DWORD $0x54ffff61d10021ce
DWORD $0x54fff1e0eb0c00bf
DWORD $0x924010ab17ffff32
WORD $0x17ffff30
	ADD $160, RSP
	// 19376: rtp_ext::gathering::compact_body
WORD $0xf81b03fe
	SUB $80, RSP
DWORD $0xa9025ff8f9000bfe
DWORD $0xa9044ff4a90357f6
DWORD $0x72001c1faa0203f5
DWORD $0x54000c00aa0103f4
DWORD $0xaa1f03f391004296
DWORD $0x8b1502d7aa1f03e8
DWORD $0xeb0802a18b150298
DWORD $0x8b080280540015e0
DWORD $0x3500024839400008
DWORD $0x54000140f100083f
DWORD $0x54001500f100043f
DWORD $0x54000108f1000c3f
DWORD $0x350000c839400408
DWORD $0x3500008839400808
DWORD $0x39400408140000a1
DWORD $0xd1000421340013e8
DWORD $0x97ffef4b91000400
DWORD $0xf100083fb4001361
DWORD $0x3940040a54001323
DWORD $0xeb01010891000948
DWORD $0x39400009540012a8
DWORD $0x34fffc498b150108
DWORD $0xd100092bcb0a0109
DWORD $0x54000282eb0b027f
DWORD $0x54000240eb0b010b
DWORD $0x540000a3f100217f
DWORD $0x8b01018ccb15026c
DWORD $0x54000202f100819f
DWORD $0xcb0c014aaa1f03ec
DWORD $0x8b0c030c8b13018b
DWORD $0x8b0b028b9100094a
DWORD $0x3840158dcb01018c
DWORD $0x3800156df100054a
DWORD $0x8b08026a54ffffa1
DWORD $0x91000933cb090149
DWORD $0xf100817f17ffffc7
DWORD $0xaa1f03ec54000062
DWORD $0x927d056d1400000f
DWORD $0xcb0102ee927be96c
DWORD $0x927be9708b1302cf
DWORD $0xf1008210ad7f85c0
DWORD $0xad3f85e0910081ce
DWORD $0x54ffff61910081ef
DWORD $0x54fffd80eb0c017f
DWORD $0xaa0c03edb4fffc2d
DWORD $0x8b1301ae927df16c
DWORD $0xcb0c01ad8b0d030f
DWORD $0xcb0101ef8b0e028e
DWORD $0xb10021adfc4085e0
DWORD $0x54ffffa1fc0085c0
DWORD $0x54fffbc0eb0c017f
DWORD $0xaa1f03e817ffffd3
DWORD $0x8b150296aa1f03f3
DWORD $0x54000a40eb0802a1
DWORD $0x3940010a8b080288
DWORD $0x7103bd5f3400008a
DWORD $0x1400004c540002c9
DWORD $0x54000140f100083f
DWORD $0x54000900f100043f
DWORD $0x54000108f1000c3f
DWORD $0x350000c939400509
DWORD $0x3500008939400909
DWORD $0x3940050914000041
DWORD $0xd1000421340007e9
DWORD $0x97ffeeeb91000500
DWORD $0x3940000ab4000761
DWORD $0x540007087103bd5f
DWORD $0x1100096912000d4b
DWORD $0x54000688eb010128
DWORD $0x8b1501087100415f
DWORD $0xcb09010c54fffbc3
DWORD $0x54000262eb0c027f
DWORD $0x540000a37100097f
DWORD $0x8b0101adcb15026d
DWORD $0x540001e2f10041bf
DWORD $0x12000d4aaa1f03eb
DWORD $0x8b0b02cd8b13016c
DWORD $0x8b0c028bcb0b014a
DWORD $0x9100094acb0101ac
DWORD $0xf100054a3840158d
DWORD $0x54ffffa13800156d
DWORD $0x17ffffc78b090273
DWORD $0x540000627100397f
DWORD $0x14000008aa1f03eb
DWORD $0x3cec6a80927c012b
DWORD $0x3cb36a80eb09017f
DWORD $0x927e052c54fffec0
DWORD $0xaa0b03ecb4fffd2c
DWORD $0x8b13018d927e092b
DWORD $0xcb0b018c8b0c02ce
DWORD $0xcb0101ce8b0d028d
DWORD $0xb100118cb84045cf
DWORD $0x54ffffa1b80045af
DWORD $0x54fffce0eb09017f
DWORD $0xeb1302a817ffffdb
DWORD $0xf1000515540002e9
DWORD $0xf100091f5400012d
DWORD $0xf1000d1f54000360
DWORD $0xf100111f54000440
DWORD $0xb8336a9f54000561
DWORD $0xb40001881400000d
DWORD $0x540004c1f100051f
DWORD $0xaa1303e038336a9f
DWORD $0xa94357f6a9444ff4
DWORD $0xf9400bfea9425ff8
	ADD $80, RSP
WORD $0xd65f03c0
	SUB $80, RSP
WORD $0xaa1303e0
DWORD $0xa94357f6a9444ff4
DWORD $0xf9400bfea9425ff8
	ADD $80, RSP
WORD $0xd65f03c0
	SUB $80, RSP
WORD $0x78336a9f
DWORD $0xa9444ff4aa1303e0
DWORD $0xa9425ff8a94357f6
WORD $0xf9400bfe
	ADD $80, RSP
WORD $0xd65f03c0
	SUB $80, RSP
DWORD $0x3900091f8b130288
DWORD $0xaa1303e07900011f
DWORD $0xa94357f6a9444ff4
DWORD $0xf9400bfea9425ff8
	ADD $80, RSP
WORD $0xd65f03c0
	SUB $80, RSP
WORD $0x8b130294
DWORD $0xaa1503e22a1f03e1
DWORD $0x940054a1aa1403e0
DWORD $0xaa1303e038356a9f
DWORD $0xa94357f6a9444ff4
DWORD $0xf9400bfea9425ff8
	ADD $80, RSP
WORD $0xd65f03c0
	// 20400: rtp_wire::packet::rtp_packet_mut::RtpPacketMut::renumber
DWORD $0x7100051f39406008
DWORD $0xf81a03fe54000941
	SUB $96, RSP
WORD $0xa9016ffe
DWORD $0xa9035ff8a90267fa
DWORD $0xa9054ff4a90457f6
DWORD $0x39406414f9400008
DWORD $0xf940080aaa0103f3
DWORD $0x7100069f39400109
DWORD $0x91004129d37e0d29
DWORD $0xcb0901578b090116
DWORD $0x3500019454000780
DWORD $0xfd4002610f00e5c0
DWORD $0x2e30a8212e203421
DWORD $0x370000c81e260028
DWORD $0x2e203420fc407261
DWORD $0x1e2600082e30a800
DWORD $0xaa1603e036000688
DWORD $0xb4000581aa1703e1
DWORD $0x3500026839400008
DWORD $0x54000140f100083f
DWORD $0x540004c0f100043f
DWORD $0x54000108f1000c3f
DWORD $0x350000c839400408
DWORD $0x3500008839400808
DWORD $0x394004081400001f
DWORD $0xd1000421340003a8
DWORD $0x97ffee3991000400
DWORD $0x39400008b4000321
DWORD $0x540002c87103bd1f
DWORD $0x1100092912000d09
DWORD $0x54000243eb090021
DWORD $0x8b0900002a0803e8
DWORD $0x38686a68d344fd08
DWORD $0x54fffc0371003d1f
DWORD $0xa9454ff42a1f03e0
DWORD $0xa9435ff8a94457f6
DWORD $0xa9416ffea94267fa
	ADD $96, RSP
WORD $0xd65f03c0
DWORD $0xd65f03c052800020
	SUB $96, RSP
WORD $0x340000b4
DWORD $0xaa1703e1b40011d7
DWORD $0x1400000aaa1603e0
DWORD $0xaa1703e1b4001157
DWORD $0x1400004faa1603e8
DWORD $0xeb01031f78286adf
DWORD $0x8b1a02c0cb1903e1
DWORD $0x3940000854001040
DWORD $0xf100083f35000248
DWORD $0xf100043f54000140
DWORD $0xf1000c3f54000f80
DWORD $0x3940040854000108
DWORD $0x39400808350000c8
DWORD $0x1400007535000088
DWORD $0x34000e6839400408
DWORD $0x91000400d1000421
DWORD $0xb4000de197ffee00
DWORD $0x54000da3f100083f
DWORD $0x9100093839400409
DWORD $0x54000d28eb010319
DWORD $0x8b17033a3940000b
DWORD $0x386b4a6acb090348
DWORD $0x340000ead1000908
DWORD $0x54fffb806b0b015f
DWORD $0x3900010a8b0802c8
DWORD $0x17ffffd839000509
DWORD $0xf1000534cb080349
DWORD $0xf100093f5400012d
DWORD $0xf1000d3f54fffa40
DWORD $0xf100113f54000140
DWORD $0xb8286adf54000181
DWORD $0xb4fff98917ffffcd
DWORD $0x540000e1f100053f
DWORD $0x17ffffc838286adf
DWORD $0x3900091f8b0802c8
DWORD $0x17ffffc47900011f
DWORD $0xaa0103fb8b0802d5
DWORD $0xaa1503e02a1f03e1
DWORD $0x940053fdaa1403e2
DWORD $0x38346abfaa1b03e1
DWORD $0xb900029f17ffffbb
DWORD $0xeb0102bf8b170308
DWORD $0x8b0802c8cb1803e1
DWORD $0x54fff40052800020
DWORD $0x3500026939400109
DWORD $0x54000140f100083f
DWORD $0x54000660f100043f
DWORD $0x54000108f1000c3f
DWORD $0x350000c939400509
DWORD $0x3500008939400909
DWORD $0x394005091400002c
DWORD $0xd100042134000549
DWORD $0x97ffedb791000500
DWORD $0x39400009b40004c1
DWORD $0x540004687103bd3f
DWORD $0x1100091512000d28
DWORD $0x540003e8eb0102b8
DWORD $0xd344fd2b2a0903e9
DWORD $0x386b6a6acb0102e9
DWORD $0x6b0b015f3400010a
DWORD $0x53047d4b54fffb40
DWORD $0xb0801482a0a116a
DWORD $0x17ffffd538296ac8
DWORD $0x8b0902d47100091f
DWORD $0x7100051f54fffa20
DWORD $0x3400016854000160
DWORD $0xaa1403e0d10006a2
DWORD $0x2a1f03e1aa0103f9
DWORD $0x940053c1d10006ba
DWORD $0x383a6a9faa1903e1
DWORD $0x39000a9f17ffffc6
DWORD $0x17ffffc37900029f
DWORD $0xa9454ff452800020
DWORD $0xa9435ff8a94457f6
DWORD $0xa9416ffea94267fa
	ADD $96, RSP
WORD $0xd65f03c0
	// 21320: rtp_ext::block_values::read_apart::<#203c5bf9b6d6d505>
WORD $0xf81503fe
	SUB $176, RSP
DWORD $0xa9066ffef9002bfd
DWORD $0xa9085ff8a90767fa
DWORD $0xa90a4ff4a90957f6
DWORD $0xaa0403f4aa0503f3
DWORD $0xaa0103e8aa0203f6
DWORD $0xaa0003f572001c7f
DWORD $0x540000602a1f03fb
DWORD $0x14000002b5000276
DWORD $0x12000360b5002a16
DWORD $0xa94957f6a94a4ff4
DWORD $0xa9485ff8f9402bfd
DWORD $0xa9466ffea94767fa
	ADD $176, RSP
WORD $0xd65f03c0
	SUB $176, RSP
WORD $0xaa1803e0
DWORD $0xaa1403e2aa1703e1
DWORD $0xaa1d03e897fff44b
DWORD $0x39400109b4fffe36
DWORD $0xf1000adf34000089
DWORD $0x17ffffec540002e2
DWORD $0x54000140f1000adf
DWORD $0x54fffd00f10006df
DWORD $0x54000108f1000edf
DWORD $0x350000c939400509
DWORD $0x3500008939400909
DWORD $0x3940050917ffffe1
DWORD $0xd10006c134fffbe9
DWORD $0x97ffed5191000500
DWORD $0xaa0103f6b4fffb61
DWORD $0xf100083faa0003e8
DWORD $0x3940051754fffae3
DWORD $0xeb0902d691000ae9
DWORD $0xaa0803f854fffa63
DWORD $0x3840270a8b09011d
DWORD $0x386a6aa9b4fffbaa
DWORD $0x7100393f51000529
WORD $0x54fffb28
	MOVD $rtp_wire_constants<>+78(SB), R10
WORD $0x9100014a
DWORD $0x3869694c10fffa2b
DWORD $0xd61f01608b0c096b
DWORD $0x54fffa0371000eff
DWORD $0x39400d0a39400909
DWORD $0x53185d2939401108
DWORD $0x2a0861282a0a4129
DWORD $0x72a001e952884809
DWORD $0x9ba97d085ac00908
DWORD $0x3901ce8952800029
DWORD $0xf9000288d352fd08
DWORD $0x71000aff17ffffc1
DWORD $0xb4001ab654001de3
DWORD $0x394003a8f9002ff3
DWORD $0xaa1603e1aa1d03e0
DWORD $0xf1000adf35000288
DWORD $0xf9402ff354000160
DWORD $0x54001a20f10006df
DWORD $0x54000128f1000edf
DWORD $0x350000e8394007a8
DWORD $0x350000a839400ba8
DWORD $0x394007a8140000ca
DWORD $0x340018e8f9402ff3
DWORD $0xd10006c1910007a0
DWORD $0xb400186197ffed0e
DWORD $0x540019e3f100083f
DWORD $0x91000b2839400419
DWORD $0x54001963eb080033
DWORD $0x38402749aa0003fa
DWORD $0x38696aa9b4001989
DWORD $0x5400192171003d3f
DWORD $0xaa1a03e08b08001d
DWORD $0x97fff113aa1903e1
DWORD $0xaa1303f67100001f
DWORD $0x9a9813589a971337
DWORD $0x140000bcb5fffab3
DWORD $0x3940030834fff1f7
DWORD $0x5280002ad2a021c9
DWORD $0x3901e68af2c01689
DWORD $0xf2e00b49d37c0508
DWORD $0x790086889ac82528
DWORD $0x710012ff17ffff85
DWORD $0xb940030854fff063
DWORD $0x3901de8952800029
DWORD $0xb9003e885ac00908
DWORD $0x71000aff17ffff7d
DWORD $0x7940030854ffef63
DWORD $0x3901e28952800029
DWORD $0x53107d085ac00908
DWORD $0x17ffff7479008288
DWORD $0x710042ffb203c3e8
	MOVD $rtp_wire_constants<>+880(SB), R25
DWORD $0xa901ffff91000339
DWORD $0xf9001fe8a902a3ff
DWORD $0x340010b754000ba8
DWORD $0x38a86b09aa1f03e8
DWORD $0x38696b29b7f80b29
DWORD $0x382869499100c3ea
DWORD $0xeb0802ff91000508
DWORD $0x3dc00fe054ffff21
DWORD $0x710012ff14000082
DWORD $0xb940030854ffeba3
DWORD $0x3901da8952800029
DWORD $0xb9003a885ac00908
DWORD $0x34ffead717ffff57
DWORD $0x5280202939400308
DWORD $0x1200190a7807b289
DWORD $0x4b0a03e953077d08
DWORD $0x39013e8839013a89
DWORD $0x710022ff17ffff4d
DWORD $0x710042ff54ffe963
DWORD $0xf840a10854000ac3
DWORD $0x14000054dac00d08
DWORD $0x54ffe88371000eff
DWORD $0x39400d0a39400909
DWORD $0x53185d2939401108
WORD $0x2a0a4129
	MOVD $rtp_wire_constants<>+0(SB), R10
WORD $0xfd400140
DWORD $0x528020292a086128
DWORD $0x5ac009087807d289
DWORD $0x530c7d09fd001280
DWORD $0xfd001a8012002d08
DWORD $0xf9000e89f9001688
DWORD $0x34ffe61717ffff31
DWORD $0x5280002939400308
DWORD $0x390136883901ea89
DWORD $0xaa1803e017ffff2b
DWORD $0xaa1403e2aa1703e1
DWORD $0x17ffff2697fff1c2
DWORD $0x54ffe483710026ff
DWORD $0x3940090a78403109
DWORD $0x7840510b5280002d
DWORD $0x784091087840710c
DWORD $0x3901328a5ac00929
DWORD $0x5ac0098c5ac0096b
DWORD $0x53107d295ac00908
DWORD $0x53107d8b53107d6a
DWORD $0x3901fe8d53107d08
DWORD $0x79008e8a79008a89
DWORD $0x790096887900928b
DWORD $0x910063e017ffff0f
DWORD $0xaa1703e2aa1803e1
DWORD $0x394063e897fff254
DWORD $0xa94223e935ffe128
DWORD $0xa9042beab203c3ea
DWORD $0xaa1f03eab40004e8
DWORD $0x38eb692caa1f03eb
DWORD $0x540000cb3101019f
DWORD $0x910103ed92401d8c
DWORD $0x382a69ac386c6b2c
DWORD $0x9100056b9100054a
DWORD $0x54000062eb08017f
DWORD $0x54fffe81f100415f
DWORD $0x140000173dc013e0
DWORD $0xf9400309aa1f03e8
DWORD $0x5280002a71003eff
DWORD $0x3901d28a1a9f97eb
DWORD $0x3901d68bdac00d29
DWORD $0x17fffeeaa900a289
	MOVD $rtp_wire_constants<>+880(SB), R29
DWORD $0x14000016910003bd
DWORD $0x1400000a6f00e400
WORD $0xaa1f03f6
	MOVD $rtp_wire_constants<>+880(SB), R29
WORD $0x910003bd
DWORD $0x4f01e4001400000f
DWORD $0x6e218c014f01e401
DWORD $0x528000284e611c00
DWORD $0x390202883d801680
DWORD $0x17fffed63901829f
WORD $0xaa1f03f6
	MOVD $rtp_wire_constants<>+880(SB), R29
WORD $0x910003bd
DWORD $0xb4ffda17f9402ff3
DWORD $0x54000061f10006ff
DWORD $0x35ffd98839400308
DWORD $0xaa1703e1aa1803e0
DWORD $0x9400013aaa1303e2
DWORD $0x17fffec62a1b001b
DWORD $0xaa1803e1aa1703e0
DWORD $0x97fff30caa1403e2
DWORD $0xb4ffd656aa1d03e8
DWORD $0x350002ab3940010b
DWORD $0x54000140f1000adf
DWORD $0x54ffd580f10006df
DWORD $0x54000108f1000edf
DWORD $0x350000c939400509
DWORD $0x3500008939400909
DWORD $0x3940050917fffea5
DWORD $0xd10006c134ffd469
DWORD $0x97ffec1591000500
DWORD $0x3940000bb4ffd3e1
DWORD $0xaa0003e8aa0103f6
DWORD $0x54ffd3487103bd7f
DWORD $0x1100092a12000d69
DWORD $0x54ffd2c3eb0a02d6
DWORD $0x8b0a011d2a0b03eb
DWORD $0x34fffbebd344fd6b
DWORD $0x5100056b386b6aab
DWORD $0x54fffb687100397f
	MOVD $rtp_wire_constants<>+93(SB), R12
DWORD $0x910005179100018c
DWORD $0x386b698e10fffa4d
DWORD $0xd10005588b0e09ad
DWORD $0x7100093fd61f01a0
DWORD $0x3940050954fffa03
DWORD $0x39400d083940090a
DWORD $0x2a0a412953185d29
DWORD $0x528848092a086128
DWORD $0x5ac0090872a001e9
DWORD $0x528000299ba97d08
DWORD $0xd352fd083901ce89
DWORD $0x17ffffc1f9000288
DWORD $0xb4001b7634001d29
DWORD $0x394003a8f9002ff3
DWORD $0xaa1d03e0f9402ff3
DWORD $0x35000268aa1603e1
DWORD $0x54000140f1000adf
DWORD $0x54001a00f10006df
DWORD $0x54000108f1000edf
DWORD $0x350000c8394007a8
DWORD $0x3500008839400ba8
DWORD $0x394007a8140000c9
DWORD $0x910007a0340018e8
DWORD $0x97ffebd1d10006c1
DWORD $0x39400008b4001861
DWORD $0x540018087103bd1f
DWORD $0x1100092912000d09
DWORD $0x54001863eb090033
DWORD $0xd344fd082a0803e8
DWORD $0x38686aa834001888
DWORD $0x5400182171003d1f
DWORD $0xd100053a91000419
DWORD $0xaa1903e08b09001d
DWORD $0x97ffefd3aa1a03e1
DWORD $0xaa1303f67100001f
DWORD $0x9a9713379a981358
DWORD $0x140000b2b5fffa73
DWORD $0xd2a021c9394002e8
DWORD $0xf2c016895280002a
DWORD $0xd37c05083901e68a
DWORD $0x9ac82528f2e00b49
DWORD $0x17ffff8579008688
DWORD $0x54fff06371000d3f
DWORD $0x52800029b94002e8
DWORD $0x5ac009083901de89
DWORD $0x17ffff7db9003e88
DWORD $0x794002e834ffef89
DWORD $0x3901e28952800029
DWORD $0x53107d085ac00908
DWORD $0x17ffff7579008288
DWORD $0xb203c3e9aa1f03e8
DWORD $0xa902a7ffa901ffff
DWORD $0x38a86ae9f9001fe9
WORD $0xb7f80c29
	MOVD $rtp_wire_constants<>+880(SB), R10
WORD $0x9100014a
DWORD $0x9100c3ea38696949
DWORD $0x9100050838286949
DWORD $0x54fffec1eb08031f
DWORD $0x4f01e4013dc00fe0
DWORD $0x3901829f52800028
DWORD $0x6e218c0139020288
DWORD $0x3d8016804e611c00
DWORD $0x71000d3f17ffff5c
DWORD $0xb94002e854ffeb43
DWORD $0x3901da8952800029
DWORD $0xb9003a885ac00908
DWORD $0x394002e817ffff54
DWORD $0x7807b28952802029
DWORD $0x53077d081200190a
DWORD $0x39013a894b0a03e9
DWORD $0x17ffff4b39013e88
DWORD $0x54ffe92371001d3f
DWORD $0x54000b0171003d3f
DWORD $0xdac00d08f8409108
DWORD $0x7100093f14000056
DWORD $0x3940050954ffe843
DWORD $0x39400d083940090a
DWORD $0x2a0a412953185d29
	MOVD $rtp_wire_constants<>+0(SB), R10
DWORD $0x2a086128fd400140
DWORD $0x7807d28952802029
DWORD $0xfd0012805ac00908
DWORD $0x12002d08530c7d09
DWORD $0xf9001688fd001a80
DWORD $0x17ffff2ff9000e89
DWORD $0x52800029394002e8
DWORD $0x390136883901ea89
DWORD $0xaa1703e017ffff2a
DWORD $0xaa1403e2aa1803e1
DWORD $0x17ffff2597fff082
DWORD $0x54ffe4637100213f
DWORD $0x3940050a79400509
DWORD $0x7940090b5280002d
DWORD $0x7940110879400d0c
DWORD $0x3901328a5ac00929
DWORD $0x5ac0098c5ac0096b
DWORD $0x53107d295ac00908
DWORD $0x53107d8b53107d6a
DWORD $0x3901fe8d53107d08
DWORD $0x79008e8a79008a89
DWORD $0x790096887900928b
DWORD $0x910063e017ffff0e
DWORD $0xaa1803e2aa1703e1
DWORD $0x394063e897fff114
DWORD $0xa94223e935ffe108
DWORD $0xa9042beab203c3ea
DWORD $0xaa1f03eab4000488
DWORD $0x38eb692caa1f03eb
DWORD $0x5400012b3101019f
WORD $0x92401d8c
	MOVD $rtp_wire_constants<>+880(SB), R13
WORD $0x910001ad
DWORD $0x910103ed386c69ac
DWORD $0x9100054a382a69ac
DWORD $0xeb08017f9100056b
DWORD $0xf100415f54000062
DWORD $0x3dc013e054fffe21
DWORD $0xaa1f03e817ffff8d
DWORD $0x71003d3ff94002ea
DWORD $0x1a9f17eb52800029
DWORD $0xdac00d493901d289
DWORD $0xa900a2893901d68b
DWORD $0xaa1f03f617fffee6
	MOVD $rtp_wire_constants<>+880(SB), R29
DWORD $0x14000008910003bd
DWORD $0x17ffff7c4f01e400
WORD $0xaa1f03f6
	MOVD $rtp_wire_constants<>+880(SB), R29
WORD $0x910003bd
DWORD $0xf100071ff9402ff3
DWORD $0x394002e854000081
DWORD $0x5280003835ffdac8
DWORD $0xaa1803e1aa1703e0
DWORD $0x94000004aa1303e2
DWORD $0x17fffecf2a1b001b
	ADD $176, RSP
	// 23956: rtp_ext::block_values::read_long::<#1839c04a795dab0b>
WORD $0xb4000561
WORD $0xf81603fe
	SUB $160, RSP
DWORD $0xa9056ffef90023fd
DWORD $0xa9075ff8a90667fa
DWORD $0xa9094ff4a90857f6
DWORD $0xf1000429aa0203f3
DWORD $0x3940000854000061
DWORD $0xaa0003e8340004e8
DWORD $0x384015183200c3eb
DWORD $0x1b0b7d4c72000f0a
DWORD $0x9100057bd344170b
DWORD $0x54000300b9004fec
DWORD $0xe2058001e270140
DWORD $0x1b1b7d4a1e26000a
DWORD $0x91000eea92401d57
DWORD $0xeb0a0135d342fd4a
DWORD $0x8b0a011454000263
DWORD $0xf100055fb400098a
DWORD $0x39400108540009e1
DWORD $0xaa1503e253081d19
DWORD $0x35000b57aa1403f6
WORD $0x1400008b
	ADD $160, RSP
DWORD $0xd65f03c02a1f03e0
	SUB $160, RSP
WORD $0x9100076a
DWORD $0xeb0a0129d341fd4a
DWORD $0x2a1f03e054000222
DWORD $0xaa1303e014000006
DWORD $0x528055022a1f03e1
DWORD $0x52800020940050e8
DWORD $0xf94023fda9494ff4
DWORD $0xa9475ff8a94857f6
DWORD $0xa9456ffea94667fa
	ADD $160, RSP
WORD $0xd65f03c0
	SUB $160, RSP
WORD $0x3940010c
DWORD $0x390133ec53047d8c
DWORD $0x3940010c340001cb
DWORD $0x12000d8c71000b7f
DWORD $0x54000120390137ec
DWORD $0x71000f7f3940080c
DWORD $0x39013bec53047d8c
DWORD $0x3940080c54000080
DWORD $0x39013fec12000d8c
DWORD $0x8b0a0108394133ec
DWORD $0xe2058009e670180
DWORD $0x34fff86b1e26000a
DWORD $0x71000b7f394137eb
DWORD $0xe2058009e670160
DWORD $0xb0b014a1e26000b
DWORD $0x39413beb54fff780
DWORD $0x9e67016071000f7f
DWORD $0x1e26000b0e205800
DWORD $0x54fff6a00b0b014a
DWORD $0x9e67016039413feb
DWORD $0x1e26000b0e205800
DWORD $0x17ffffaf0b0b014a
DWORD $0xaa1503e22a1f03f9
DWORD $0x35000257aa1403f6
DWORD $0x710022ff14000043
DWORD $0x79400108540000e8
DWORD $0xaa1503e25ac00919
DWORD $0x35000157aa1403f6
DWORD $0xf1000d5f1400003b
DWORD $0x39400909540000a1
DWORD $0x2a09410879400108
DWORD $0xb940010814000002
DWORD $0x528004085ac00919
DWORD $0xaa1403f62a1903e9
DWORD $0xaa1503e2cb170508
DWORD $0x1201f1099ac82528
DWORD $0x1e2701209e670101
DWORD $0xe2058000e205821
DWORD $0xe31b8000e31b821
DWORD $0x1e2600091e260028
DWORD $0xab09011a8b170108
DWORD $0xaa1503e2540003e0
DWORD $0x14000005aa1403f6
DWORD $0x910006d6d1000442
DWORD $0x54000300f100075a
DWORD $0x39c002c8b4ffffc2
DWORD $0xf100045f36ffff48
DWORD $0x39c006c8540000a0
DWORD $0x5280004837f80068
DWORD $0x9100a3e01400000a
DWORD $0xaa0203fdaa1603e1
DWORD $0x3940a3e897ffef19
DWORD $0x540000c17100051f
DWORD $0xaa1d03e2f9401fe8
DWORD $0xcb0800428b0802d6
DWORD $0xaa1d03e217ffffea
DWORD $0xf100144917ffffe8
DWORD $0x53067f1754001ea2
DWORD $0x2a1f03e1aa1303e0
DWORD $0x52805502aa0203f8
DWORD $0xaa1803f094005066
DWORD $0x390a8677aa1f03e8
DWORD $0x14000006f9000bfb
DWORD $0xf9400bfbf94013e8
DWORD $0xeb1b011f91000508
DWORD $0xaa0803eb54ffeea0
DWORD $0x52801509394a8268
DWORD $0xf90013eb910133ea
DWORD $0x386b695b9ba94d09
DWORD $0x390a826811000508
DWORD $0x350000fb3902813f
DWORD $0x385f81a817fffff0
DWORD $0x1100050853017f7b
DWORD $0x34fffd7b381f81a8
DWORD $0xaa1f03fd370000fb
DWORD $0xaa1f03f7aa1f03fa
DWORD $0x2a1f03f8aa1f03e8
DWORD $0xb40002351400002d
DWORD $0xb7f802bd3980029d
DWORD $0x91000694d10006b5
DWORD $0x11000518531e7f28
DWORD $0xb4000395340001c8
DWORD $0x92401d1a39c00288
DWORD $0xd10006b537f80a48
DWORD $0x71000b1f91000694
DWORD $0x1400007254000300
DWORD $0x531e7f28aa1f03fd
DWORD $0x35fffe8811000518
DWORD $0x14000011aa1f03fa
DWORD $0x540006a0f10006bf
DWORD $0xb7f8066839800688
DWORD $0xaa081d3d92401ba9
DWORD $0x8b08029452800048
DWORD $0x531e7f28cb0802b5
DWORD $0x35fffcc811000518
DWORD $0xaa1f03fa17fffff2
DWORD $0x54000b8171000b1f
DWORD $0xaa1f03e8aa1f03f7
DWORD $0xf100160d531e7739
DWORD $0x2a1f03eb540000c2
DWORD $0x2a1f03ea2a1f03e9
DWORD $0x1400000d2a1f03ec
DWORD $0x794006ca794002c9
DWORD $0x5ac00929aa0d03f0
DWORD $0x53107d2b5ac0094a
DWORD $0x394012c953107d4a
DWORD $0x1100056c910016d6
DWORD $0x5280002b1100054a
DWORD $0x5280150e394a826d
DWORD $0x9bae4dad5280050f
DWORD $0x9baf35ce385f81ae
DWORD $0xa90121d7a9b5e9dd
DWORD $0x34fff5cb390099d8
DWORD $0x790041cc52800028
DWORD $0x390091c9790045ca
DWORD $0x17ffffa8390095c8
DWORD $0xaa1403e19100a3e0
DWORD $0xaa1003f7aa1503e2
DWORD $0x3940a3e897ffee93
DWORD $0x540004817100051f
DWORD $0xaa1703f0a94323fd
DWORD $0xcb0802b58b080294
DWORD $0x11000518531e7f28
DWORD $0x17ffffb935fff5a8
DWORD $0x54000160f10006bf
DWORD $0xb7f8012839800688
DWORD $0xaa081d3a92401b49
DWORD $0x8b08029452800048
DWORD $0x71000b1fcb0802b5
DWORD $0x1400001a54fff800
DWORD $0xaa1403e19100a3e0
DWORD $0xaa1003f7aa1503e2
DWORD $0x3940a3e897ffee77
DWORD $0x540001c17100051f
DWORD $0xaa1703f0a94323fa
DWORD $0xcb0802b58b080294
DWORD $0x54fff62071000b1f
DWORD $0xaa1f03fd1400000b
DWORD $0x531e7f28aa1703f0
DWORD $0x35fff18811000518
DWORD $0xaa1f03fa17ffff98
DWORD $0x71000b1faa1703f0
DWORD $0xb400013554fff4c0
DWORD $0x92401d1739c00288
DWORD $0xd10006b537f80208
DWORD $0x71000f1f91000694
DWORD $0x1400000454fff3e0
DWORD $0x71000f1faa1f03f7
DWORD $0xb4fff35554fff360
DWORD $0x92401d2839c00289
DWORD $0xd10006b537f803e9
DWORD $0x17ffff9591000694
DWORD $0x54000160f10006bf
DWORD $0xb7f8012839800688
DWORD $0xaa081d3792401ae9
DWORD $0x8b08029452800048
DWORD $0x71000f1fcb0802b5
DWORD $0x17ffffee54fff120
DWORD $0xaa1403e19100a3e0
DWORD $0xf9000ff0aa1503e2
DWORD $0x3940a3e897ffee3f
DWORD $0x540002017100051f
DWORD $0xf9400ff0a94323f7
DWORD $0xcb0802b58b080294
DWORD $0x54ffef4071000f1f
DWORD $0xf10006bf17ffffdf
DWORD $0x3980068954000180
DWORD $0x92401908b7f80149
DWORD $0x52800049aa091d08
DWORD $0xf9400ff014000010
DWORD $0x71000f1faa1f03f7
DWORD $0x17ffffd254ffeda0
DWORD $0xaa1403e19100a3e0
DWORD $0xf9000ff0aa1503e2
DWORD $0x3940a3e897ffee23
DWORD $0x540000c17100051f
DWORD $0xf9400ff0a94327e8
DWORD $0xcb0902b58b090294
DWORD $0xf9400ff017ffff60
DWORD $0x5280002817ffff5d
DWORD $0x7940014baa1603ea
DWORD $0x529fffeb5ac0096c
DWORD $0x54ffd0806b4c417f
DWORD $0x5ac0098c7940054c
DWORD $0x54ffd0006b4c417f
DWORD $0x54ffe002eb17011f
DWORD $0xd1001529f100153f
DWORD $0x9100154a91000508
DWORD $0x17fffefa54fffe22
	ADD $160, RSP
	// 25732: rtp_c::template::not_routed_status
WORD $0x39400008
DWORD $0x540000627100091f
DWORD $0xd65f03c052800120
DWORD $0x5280020054000061
DWORD $0x39402008d65f03c0
DWORD $0x2a0803e039402401
WORD $0x17fff7a1
	// 25780: rtp_c::status::refusal_status
WORD $0x92401c08
	MOVD $rtp_wire_constants<>+2448(SB), R9
DWORD $0xb868792091000129
WORD $0xd65f03c0
	// 25804: rtp_ext::place::remove_element
WORD $0xf81903fe
	SUB $112, RSP
WORD $0xf9000bfd
DWORD $0xa90367faa9026ffe
DWORD $0xa90557f6a9045ff8
DWORD $0xaa0203f3a9064ff4
DWORD $0x72001c1faa0103f4
DWORD $0x2a1f03f712001c78
DWORD $0xb4001093540000a0
DWORD $0xaa1403e0aa1303e1
DWORD $0xb40010131400000d
DWORD $0xaa1403e8aa1303f5
DWORD $0x78286a9f1400004d
DWORD $0x8b1b02806b1803bf
DWORD $0xeb01033f1a9f17e8
DWORD $0x2a0802f7cb1a03e1
DWORD $0x3940000854000ea0
DWORD $0xf100083f35000248
DWORD $0xf100043f54000140
DWORD $0xf1000c3f54000de0
DWORD $0x3940040854000108
DWORD $0x39400808350000c8
DWORD $0x1400006835000088
DWORD $0x34000cc839400408
DWORD $0x91000400d1000421
DWORD $0xb4000c4197ffe8f8
DWORD $0x54000c03f100083f
DWORD $0x9100091939400408
DWORD $0x54000b88eb01033a
DWORD $0x8b13035b3940001d
DWORD $0x54fffba16b1803bf
DWORD $0xd1000908cb080368
DWORD $0xf1000535cb080369
DWORD $0xf100093f5400012d
DWORD $0xf1000d3f54fffaa0
DWORD $0xf100113f54000140
DWORD $0xb8286a9f54000181
DWORD $0xb4fff9e917ffffd0
DWORD $0x540000e1f100053f
DWORD $0x17ffffcb38286a9f
DWORD $0x3900091f8b080288
DWORD $0x17ffffc77900011f
DWORD $0xf9000fe18b080296
DWORD $0xaa1603e02a1f03e1
DWORD $0x94004efbaa1503e2
DWORD $0x38356adff9400fe1
DWORD $0xb90002df17ffffbe
DWORD $0x1a9f17e86b1803bf
DWORD $0xcb1a03f5eb15033f
DWORD $0x8b1b02882a0802f7
DWORD $0x3940010954000620
DWORD $0xf1000abf35000289
DWORD $0xf10006bf54000140
DWORD $0xf1000ebf54000560
DWORD $0x3940050954000108
DWORD $0x39400909350000c9
DWORD $0x1400002435000089
DWORD $0x3400044939400509
DWORD $0x91000500d10006a1
DWORD $0xb40003c197ffe8b4
DWORD $0xaa0103f539400009
DWORD $0x540003487103bd3f
DWORD $0x1100091912000d28
DWORD $0x540002c8eb15033a
DWORD $0x8b13035b53047d3d
DWORD $0x54fffb616b1803bf
DWORD $0x7100091fcb190369
DWORD $0x54fffac08b090296
DWORD $0x540001207100051f
DWORD $0xd100072234000128
DWORD $0x2a1f03e1aa1603e0
DWORD $0xd100072894004ec6
DWORD $0x17ffffcd38286adf
DWORD $0x790002df39000adf
DWORD $0x120002e017ffffca
DWORD $0xa94557f6a9464ff4
DWORD $0xa94367faa9445ff8
DWORD $0xf9400bfda9426ffe
	ADD $112, RSP
WORD $0xd65f03c0
	// 26424: rtp_route::walk::write_kept::<#82187cbc7fdfa14b>
WORD $0xf81803fe
	SUB $128, RSP
DWORD $0xa90467faa9036ffe
DWORD $0xa90657f6a9055ff8
DWORD $0x2a030088a9074ff4
DWORD $0xaa0703f3f9404be9
DWORD $0xaa0503f8aa0603f6
DWORD $0x72001d1faa0203f7
DWORD $0xa90227fdaa0003f5
DWORD $0xb4003536540000a0
DWORD $0x2a0303fa2a0403f9
DWORD $0xb40034b614000009
DWORD $0x140000f09104026c
DWORD $0x8b1b03b739400308
DWORD $0xaa1403f8383d6aa8
DWORD $0x39400308b40033d6
DWORD $0x72001f5f340001c8
DWORD $0xf1000adf54000460
DWORD $0x3940071b54003303
DWORD $0xeb0802d691000b68
DWORD $0x8b08031454003283
DWORD $0x38686a7d38402708
DWORD $0x17fffff03500051d
DWORD $0x54000140f1000adf
DWORD $0x54003160f10006df
DWORD $0x54000108f1000edf
DWORD $0x350000c839400708
DWORD $0x3500008839400b08
DWORD $0x3940070814000184
DWORD $0xaa0103f434003048
DWORD $0x91000700d10006c1
DWORD $0xb4002fa197ffe850
DWORD $0xaa0003f8aa0103f6
DWORD $0x72001f5faa1403e1
DWORD $0x3940030954fffbe1
DWORD $0x54002ea87103bd3f
DWORD $0x9100090892400d28
DWORD $0x54002e23eb0802d6
DWORD $0x8b080314d344fd29
DWORD $0x34fff9dd38696a7d
DWORD $0x9100071871003fbf
DWORD $0x54001182d100051b
DWORD $0x387d490891040268
DWORD $0x39488a6934000388
DWORD $0x540003236b08013f
DWORD $0x91080269d1000508
DWORD $0x6b1d013f38686929
DWORD $0xf94017e954000281
DWORD $0xb94003698b080d3b
DWORD $0x9108426935002ca9
DWORD $0x8b1802e838686938
DWORD $0xeb08003f91000908
DWORD $0x72001f3f54002be3
DWORD $0x8b1702a854000a40
DWORD $0x390005183900011d
DWORD $0x8b17011752800048
DWORD $0x1400006535000a98
DWORD $0x910009088b1b02e8
DWORD $0x54002a43eb08003f
DWORD $0x5400010072001f3f
DWORD $0x3900011d8b1702a8
DWORD $0x528000483900051b
DWORD $0xb500015b8b17011d
DWORD $0x53047fa81400001f
DWORD $0xb0803682a1d1108
DWORD $0x38376aa851000508
DWORD $0x8b17011d52800028
DWORD $0xf100077fb40002fb
DWORD $0xf1000b7f54fff240
DWORD $0x3940030854000108
DWORD $0x8b1b03b78b1d02a9
DWORD $0x3940070839000128
DWORD $0x17ffff8c39000528
DWORD $0x54000141f1000f7f
DWORD $0x8b1d02a939400308
DWORD $0x390001288b1b03b7
DWORD $0x3900052839400708
DWORD $0x3900092839400b08
DWORD $0x8b1d02a917ffff81
DWORD $0xeb1b013fcb180129
DWORD $0xf100237f54000282
DWORD $0x8b1502e9540000c3
DWORD $0xcb1801298b080129
DWORD $0x540004a2f100813f
DWORD $0x8b17012aaa1f03e9
DWORD $0xcb0903688b0802ab
DWORD $0x8b0a016a8b090309
DWORD $0xf10005083840152b
DWORD $0x54ffffa13800154b
DWORD $0x17ffff6a8b1b03b7
DWORD $0xaa0103f78b1d02a0
DWORD $0xaa1b03e2aa1803e1
DWORD $0xaa1703e194004db0
DWORD $0x17ffff628b1b03b7
DWORD $0x2a1d110853047fa8
DWORD $0x510005080b080308
DWORD $0x5280002838376aa8
DWORD $0x340002788b170117
DWORD $0x540000617100071f
DWORD $0x1400001538376abf
DWORD $0x540000e871000b1f
DWORD $0x1400001178376abf
DWORD $0x54000342f100837f
DWORD $0x14000027aa1f03e9
DWORD $0x540000a171000f1f
DWORD $0x7900011f8b1702a8
DWORD $0x140000073900091f
DWORD $0xaa0103fd8b1702a0
DWORD $0xaa1803e22a1f03e1
DWORD $0xaa1d03e194004dde
DWORD $0x8b1802f729006377
DWORD $0x2a1903e017ffff3f
DWORD $0x2a1d03e1f9000fe1
DWORD $0x940000e8aa1b03e2
DWORD $0x35ffede0f9400fe1
DWORD $0x910042ac140000e2
DWORD $0x927beb69927d076a
DWORD $0x8b1d018c9100430b
DWORD $0xad7f8560927beb6d
DWORD $0x9100816bf10081ad
DWORD $0x9100818cad3f8580
DWORD $0xeb09037f54ffff61
DWORD $0xb4fff68a54fff7c0
DWORD $0x927df369aa0903eb
DWORD $0x8b17016c8b0802ad
DWORD $0x8b0b030bcb09016a
DWORD $0xfc4085608b0c01ac
DWORD $0xfc008580b100214a
DWORD $0xeb09037f54ffffa1
DWORD $0x17ffffa654fff600
DWORD $0x8b1d02f739400108
DWORD $0x8b1d031838296aa8
DWORD $0x3940031ab4001696
DWORD $0xf1000adf3500031a
DWORD $0xf10006df54000140
DWORD $0xf1000edf540015c0
DWORD $0x3940070854000108
DWORD $0x39400b08350000c8
DWORD $0x140000a735000088
DWORD $0x340014a839400708
DWORD $0xd10006c1aa0103f4
DWORD $0x97ffe77391000700
DWORD $0x3940001ab4001401
DWORD $0xaa0003f8aa0103f6
DWORD $0x9104026caa1403e1
DWORD $0x540013287103bf5f
DWORD $0x11000a9d12000f54
DWORD $0x540012a3eb1d02d6
DWORD $0xd344fd082a1a03e8
DWORD $0xb4fffb9938686a79
DWORD $0xd10007bb71003f3f
DWORD $0x3879698854000b42
DWORD $0x39488a69340003c8
DWORD $0x540003636b08013f
DWORD $0x91080269d1000508
DWORD $0x6b19013f38686929
DWORD $0xf94017e9540002c1
DWORD $0xb94002898b080d34
DWORD $0x9108426935001169
DWORD $0x8b1a02e83868693a
DWORD $0xeb08003f91000908
DWORD $0x53047f28540010a3
DWORD $0xb0803482a191108
DWORD $0x38376aa851000508
DWORD $0x34000b5a910006f7
DWORD $0x540009c17100075f
DWORD $0x1400005d38376abf
DWORD $0x910009088b1b02e8
DWORD $0x54000ec3eb08003f
DWORD $0xf100077f53047f28
DWORD $0x910007082a191109
DWORD $0x510005290b090369
DWORD $0x910006e938376aa9
DWORD $0x7100069f54fff540
DWORD $0x3940070854000108
DWORD $0x8b1d02f78b0902a9
DWORD $0x39400b0839000128
DWORD $0x17ffffa439000528
DWORD $0x54000141f1000f7f
DWORD $0x8b0902a939400708
DWORD $0x390001288b1d02f7
DWORD $0x3900052839400b08
DWORD $0x3900092839400f08
DWORD $0x8b0902a017ffff99
DWORD $0xeb1b013fcb080009
DWORD $0x71000a9f540003e2
DWORD $0x8b1502e9540000a0
DWORD $0xf100413fcb180129
DWORD $0xaa1f03e9540006a2
DWORD $0x8b09030a12000f48
DWORD $0xcb0901088b17012b
DWORD $0x910006aa91000549
DWORD $0x8b0b014a91000508
DWORD $0xf10005083840152b
DWORD $0x54ffffa13800154b
DWORD $0x17ffff808b1d02f7
DWORD $0x2a1f03e0d10007a2
DWORD $0x2a1903e1f9000fe1
DWORD $0xf9400fe19400003f
DWORD $0x35fff4009104026c
DWORD $0xaa0103f414000038
DWORD $0xd10007a291000701
DWORD $0x9104026c94004cd4
DWORD $0x8b1d02f7aa1403e1
DWORD $0x71000b5f17ffff6f
DWORD $0x78376abf54000068
DWORD $0x71000f5f1400000e
DWORD $0x8b1702a8540000a1
DWORD $0x3900091f7900011f
DWORD $0x8b1702a014000008
DWORD $0x2a1f03e1aa0103f9
DWORD $0x94004d11aa1a03e2
DWORD $0xaa1903e19104026c
DWORD $0x8b1a02f729006a97
DWORD $0x71003e9f17ffff5b
DWORD $0x3dc00100540000a1
DWORD $0x3d8000008b1d02f7
DWORD $0x927ef76917ffff55
DWORD $0xb840450b927ef76a
DWORD $0xb800440bf100114a
DWORD $0xeb09037f54ffffa1
DWORD $0x17ffffcb54fff801
DWORD $0xaa1703e152800020
DWORD $0xa94657f6a9474ff4
DWORD $0xa9455ff8f94013fd
DWORD $0xa9436ffea94467fa
	ADD $128, RSP
WORD $0xd65f03c0
	SUB $128, RSP
WORD $0x2a1f03e0
DWORD $0x17fffff4aa1f03f7
	ADD $128, RSP
	// 28252: rtp_route::walk::is_carried
WORD $0x72001c1f
DWORD $0x540000c012001c28
DWORD $0x528020087100011f
DWORD $0x1a9f27e0fa481042
DWORD $0x51000508d65f03c0
DWORD $0x7100391fd1000449
DWORD $0x1a9f27e0fa503922
WORD $0xd65f03c0
	// 28308: rtp_route::copying::put_any
WORD $0xcb010009
DWORD $0x54000142eb02013f
DWORD $0xaa1f03e8f100205f
DWORD $0xf100813f54000423
DWORD $0xf100805f540003e3
DWORD $0xaa1f03e854000082
DWORD $0x14004c8314000010
DWORD $0x927be848927d0449
DWORD $0x9100400b9100402a
DWORD $0xad7f8540927be84c
DWORD $0x9100814af100818c
DWORD $0x9100816bad3f8560
DWORD $0xeb08005f54ffff61
DWORD $0xb400018954000280
DWORD $0x927df048aa0803eb
DWORD $0x8b0b002acb080169
DWORD $0xfc4085408b0b000b
DWORD $0xfc008560b1002129
DWORD $0xeb08005f54ffffa1
DWORD $0xcb08004954000100
DWORD $0x8b0800088b08002a
DWORD $0xf10005293840154b
DWORD $0x54ffffa13800150b
WORD $0xd65f03c0
	// 28492: rtp_route::by_walk::write_in_two_byte_form::<#82187cbc7fdfa14b>
WORD $0xd10703f0
WORD $0xf900021e
	SUB $448, RSP
DWORD $0xa9176ffef900b3fd
DWORD $0xa9195ff8a91867fa
DWORD $0xa91b4ff4a91a57f6
DWORD $0x7100051f39406028
DWORD $0x3ccc106054001481
DWORD $0x910163e83ccd1061
DWORD $0x3940044a910127e9
DWORD $0x3c8c1100f9400034
DWORD $0x394064333cce1060
DWORD $0x3dc03c613c8d1101
DWORD $0x7100067ff9400837
DWORD $0x3cc810603c8e1100
DWORD $0x3cc910613c8ff121
DWORD $0x3c88110039400049
DWORD $0x3940205a3cca1060
DWORD $0x3ccb10613c891101
DWORD $0x3c8a110039404059
DWORD $0x3c8b11013cc41060
DWORD $0x3cc5106139400848
DWORD $0x3cc610603c8993e0
DWORD $0x39400c48b9016be8
DWORD $0x3cc010603c8b93e0
DWORD $0x39401048290823ea
DWORD $0x3c8593e079400c4a
DWORD $0xb9016fe83cc11060
DWORD $0x3c8693e0b9400c48
DWORD $0x290a27e83cc21060
DWORD $0x3c8a93e1b9401448
DWORD $0x3c8793e03cc71061
DWORD $0x290923ea3cc31060
DWORD $0x3c8c93e139400288
DWORD $0x3c8893e0390163ff
DWORD $0x3500019354000d80
DWORD $0xfd402fe10f00e5c0
DWORD $0x2e30a8212e203421
DWORD $0x370000c91e260029
DWORD $0x2e203420fc45f3e1
DWORD $0x1e2600092e30a800
DWORD $0xd37e0d0836000c09
DWORD $0xaa0603fdaa0403fb
DWORD $0x91004109aa0303f5
DWORD $0xcb0902e18b090288
DWORD $0x39400109b4000b01
DWORD $0xf100083f35000369
DWORD $0xf100043f54000140
DWORD $0xf1000c3f54000a40
DWORD $0x3940050954000108
DWORD $0x39400909350000c9
DWORD $0x1400004b35000089
DWORD $0x3400092939400509
DWORD $0xaa0003f6d1000421
DWORD $0xaa0503f891000500
DWORD $0xaa0003e897ffe61c
DWORD $0xb4000821aa1603e0
DWORD $0xaa1803e539400109
DWORD $0xaa1d03e6aa1503e3
DWORD $0x7103bd3faa1b03e4
DWORD $0x12000d2a54000748
DWORD $0xeb0a00211100094a
DWORD $0x2a0903e9540006c3
DWORD $0x8b0a0108910163eb
DWORD $0x38696969d344fd29
DWORD $0x54fffae371003d3f
DWORD $0x321e3fe86f00e400
DWORD $0xeb0800bfd37ffae9
DWORD $0x91000d289a8830a1
DWORD $0xad0000c0eb080028
DWORD $0xad0200c0ad0100c0
DWORD $0x54000ba3ad0300c0
DWORD $0x7944406a39488869
DWORD $0xeb0a011f8b09054a
DWORD $0x3940028854000b03
DWORD $0x39488c6934000089
DWORD $0x54000a607100053f
DWORD $0xa90303e1d37e0d0a
DWORD $0xaa0303e7aa0403e0
DWORD $0x528000242a1303e3
DWORD $0x9100414291004149
DWORD $0xcb0902e8f90017ea
DWORD $0xaa0603e98b090285
DWORD $0xf9000be9aa0803e6
DWORD $0x3600076097fffd56
DWORD $0x39488ab5aa1503e8
DWORD $0xb4000735f9401fe0
DWORD $0x91084116f9401beb
DWORD $0x14000019aa1b03e8
DWORD $0x7900201fa9007c1f
DWORD $0xf940b3fda95b4ff4
DWORD $0xa9595ff8a95a57f6
DWORD $0xa9576ffea95867fa
	ADD $448, RSP
WORD $0xd65f03c0
	SUB $448, RSP
WORD $0x8b180100
DWORD $0xaa1703e22a1f03e1
DWORD $0xa94303eb94004bf4
DWORD $0xaa1b03e88b17030c
DWORD $0x29005fb8aa0c03e1
DWORD $0x910023bdf10006b5
DWORD $0x540003e0910006d6
DWORD $0x35ffff69b94003a9
DWORD $0x91000838394002d7
DWORD $0xeb0c017f8b17030c
DWORD $0x385f02c954000383
DWORD $0x390005578b01010a
DWORD $0x34fffd1739000149
DWORD $0x54000061710006ff
DWORD $0x17ffffeb3838691f
DWORD $0x5400006871000aff
DWORD $0x17ffffe77838691f
DWORD $0x54fffbc171000eff
DWORD $0x7900013f8b180109
DWORD $0x17ffffe13900093f
DWORD $0x14000007f9401fe0
DWORD $0xaa1b03e8f9401beb
DWORD $0x927ef53591000c29
DWORD $0x54000102eb15017f
DWORD $0xaa1f03f52a1f03e8
DWORD $0x390040082a0803e9
DWORD $0x39004408a9005409
DWORD $0xf94017ea17ffffc2
DWORD $0x91004157eb0102a9
DWORD $0xf100093f54000180
DWORD $0xf100053f540000a0
DWORD $0x3821691f540000a1
DWORD $0x7821691f14000006
DWORD $0x8b01010914000004
DWORD $0x7900013f3900093f
DWORD $0xcb1702b67100855f
DWORD $0xaa0803e054000103
DWORD $0xaa1703e2aa1403e1
DWORD $0xf9401fe097fffecd
DWORD $0x14000009aa1b03e8
DWORD $0x7100455f3dc00280
DWORD $0x540000633d800100
DWORD $0x3d8005003dc00680
DWORD $0x3caa69003cea6a80
DWORD $0xb9416bedb9416fec
DWORD $0xb94057ee7100067f
DWORD $0x531a66c954000361
DWORD $0x710005df8b17010a
DWORD $0x781fe149330a46c9
DWORD $0x39400509540004a1
DWORD $0x33191d49b94043ea
DWORD $0x710005bf39000509
DWORD $0x7100059f54000420
DWORD $0xb9404be9540004c1
DWORD $0x790005095ac00529
DWORD $0x540004607100075f
DWORD $0x540000817100073f
DWORD $0x5ac00929b9404fe9
DWORD $0x52800028b9000909
DWORD $0x8b17010917ffffbc
DWORD $0xd1001129910573ea
DWORD $0x5280020acb0a012b
DWORD $0x7902bbeaf100057f
DWORD $0x7942bbea54000048
DWORD $0x531a66c97900012a
DWORD $0x710005df8b17010a
DWORD $0x781fe149330a46c9
DWORD $0x710005bf54fffba0
DWORD $0x3940050954fffc21
DWORD $0x12190129b94047ea
DWORD $0x390005090b0a0129
DWORD $0x54fffb807100059f
DWORD $0x54fffbe17100075f
DWORD $0x5ac00929b94053e9
DWORD $0x7100073fb9000509
DWORD $0x17ffffde54fffb80
	ADD $448, RSP
	// 29844: rtp_route::making::make_by_calls_of::<#82187cbc7fdfa14b>
WORD $0xd10643f0
WORD $0xf900021e
	SUB $400, RSP
DWORD $0xa9184ffef900bbfd
DWORD $0x3ccc10416f00e400
DWORD $0x3ccd1042910143e8
DWORD $0x39488c4cf9400829
DWORD $0x3cce10413c8c1101
DWORD $0x3940602aaa0003f3
DWORD $0x3c8d11023940642b
DWORD $0x3dc03c40ad0a83e0
DWORD $0x3cc810413c8e1101
DWORD $0x3cc910403d8053e0
DWORD $0x3cca10413c881101
DWORD $0x3ccb10403c891100
DWORD $0x3cc410413c8a1101
DWORD $0x3cc510403c8b1100
DWORD $0x3cc610413c841101
DWORD $0x3cc710403c851100
DWORD $0x3cc010413c861101
DWORD $0x3cc110403c871100
DWORD $0x3c8613e03c8513e1
DWORD $0xf90027ff3cc21040
DWORD $0x3cc310403c8713e0
DWORD $0x390143fff90017ff
DWORD $0x340000ac3c8813e0
DWORD $0x540000a17100059f
DWORD $0x140000052a1f03ed
DWORD $0x140000032a0c03ed
DWORD $0x5280002d5280002c
DWORD $0xa9038be83dc00020
DWORD $0x910043e1910543e0
DWORD $0x390123ec9100e3e2
DWORD $0x3d8007e0390127ed
DWORD $0x3900a3eaf90013e9
DWORD $0x9400000b3900a7eb
DWORD $0xf940afe9394543e8
DWORD $0xa90026687942c3ea
DWORD $0x7900226aa956f7e8
DWORD $0xa9584ffef9000e68
	ADD $400, RSP
WORD $0xd65f03c0
	// 30160: rtp_route::making::make_by_calls::<#7cdc9bd62dfc103a>
DWORD $0xf900021ed10743f0
	SUB $464, RSP
WORD $0xf900bbfd
DWORD $0xa91967faa9186ffe
DWORD $0xa91b57f6a91a5ff8
DWORD $0x6f00e400a91c4ff4
DWORD $0xaa0103e8aa0203f4
DWORD $0xf9400021f9400822
DWORD $0x3940651b3940611a
DWORD $0xa90cffffaa0003f3
DWORD $0xad0103e0eb02009f
DWORD $0xad0303e0ad0203e0
DWORD $0xad0503e0ad0403e0
DWORD $0x2a1f03e8540000a2
DWORD $0x5280006a52800109
DWORD $0xd100c44814000046
DWORD $0xaa0303f5aa0403f6
DWORD $0xaa0203f7b100891f
DWORD $0x540000a8f900bfe5
DWORD $0x97fffe0caa1503e0
DWORD $0x1400000aaa1703e2
DWORD $0xf100845f3dc00020
DWORD $0x540000633d8002a0
DWORD $0x3d8006a03dc00420
DWORD $0x3ce86820d1004048
DWORD $0xf94002983ca86aa0
DWORD $0x9103c3e039404299
DWORD $0xa9107fe23940469d
DWORD $0xa90f0bf5aa1803e1
DWORD $0x390427fb390423fa
DWORD $0x3600036097fff63e
DWORD $0xa90f7ffff9400688
DWORD $0x39488918f90083ff
DWORD $0x9108411ab4000918
DWORD $0x39400346aa1703e3
WORD $0x39404688
	MOVD $rtp_wire_constants<>+1136(SB), R5
WORD $0x910000a5
DWORD $0x385f034439404287
DWORD $0xaa1503e19103c3e0
DWORD $0x390043e8aa1603e2
DWORD $0x3943c3e8940000b2
DWORD $0x350001a8f9407fe3
DWORD $0x9100075af1000718
DWORD $0x1400003454fffde1
DWORD $0x540003217100073f
DWORD $0x2a1f03e93500031d
DWORD $0xaa1f03e22a1f03e8
DWORD $0x140000055280004a
DWORD $0xd348fc68f94083e2
DWORD $0x5280006a2a0303e9
DWORD $0x390042695280002b
DWORD $0x39004668a9002a6b
DWORD $0xa95c4ff4f9000e62
DWORD $0xa95b57f6f940bbfd
DWORD $0xa95967faa95a5ff8
WORD $0xa9586ffe
	ADD $464, RSP
WORD $0xd65f03c0
	SUB $464, RSP
DWORD $0xaa1503e1910363e0
DWORD $0xaa1703e3aa1603e2
DWORD $0x394363e89400006b
DWORD $0x340000a8f94073e9
DWORD $0xd348fd28f94077e2
DWORD $0x17ffffe75280006a
DWORD $0x9103c3e052802028
DWORD $0xa90f27f5aa1803e1
DWORD $0xa91023e9aa0903f7
DWORD $0xf940068897fff5f6
DWORD $0xf90083ffa90f7fff
DWORD $0xb5fff75839488918
DWORD $0x910323e0aa1703e3
DWORD $0xaa0303e2aa1503e1
DWORD $0x394323e8940003cd
DWORD $0xf9406bf6350009e8
DWORD $0x54000983f10032df
DWORD $0x3101051f39c002a8
DWORD $0x92401d095400092c
DWORD $0x91003108d37e0d28
DWORD $0x54000883eb0802ca
DWORD $0x2a1f03f837200089
DWORD $0x140000132a1f03f7
DWORD $0x540007c3f100114b
DWORD $0x394009498b0802aa
DWORD $0xd376d52939400d4c
DWORD $0xeb09017faa0c0929
DWORD $0x7940014a540006e3
DWORD $0x910011088b090108
DWORD $0x7100417f12146d4b
DWORD $0x1a9f17f7529bd7cb
DWORD $0x1a9f16f86b0b015f
DWORD $0x6f00e400f9005be8
DWORD $0xa90a5bf5f9400688
DWORD $0x3902e3f839488914
DWORD $0xb900e3ff3902e7f7
DWORD $0xad0783e0f9006fff
DWORD $0xad0983e0ad0883e0
DWORD $0xb40001d4ad0a83e0
DWORD $0x9103c3fa91080115
DWORD $0x910363e0384016a2
DWORD $0x940003f4910283e1
DWORD $0x7100051f394363e8
DWORD $0xf84dc3e8540002e1
DWORD $0xf8008748f1000694
DWORD $0xad4987e054fffec1
DWORD $0xad4a8fe2f940bfe8
DWORD $0xad489fe6ad4797e4
DWORD $0xad040fe2ad0307e0
DWORD $0xad021fe6ad0117e4
DWORD $0xad011d06ad001504
DWORD $0xad030d02ad020500
DWORD $0x39004278a9005a7f
DWORD $0xf9000e7f39004677
DWORD $0xd420002017ffff8b
	ADD $464, RSP
	// 31052: rtp_route::in_place::change_form
WORD $0xf81a03fe
	SUB $96, RSP
WORD $0xa9054ffe
DWORD $0xa90207ffaa0003f3
DWORD $0xa9030fe252800028
DWORD $0x9100a3e1910043e0
DWORD $0xa9017fff52800022
DWORD $0x390123e8f90023e3
DWORD $0xb9004fffb80493ff
DWORD $0x394043e897fff28e
DWORD $0xf94013ea34000148
DWORD $0x52800028794033e9
DWORD $0xf9000a6aa9002668
WORD $0xa9454ffe
	ADD $96, RSP
WORD $0xd65f03c0
	SUB $96, RSP
DWORD $0xa900267ff9401fe9
DWORD $0xa9454ffef9000a7f
	ADD $96, RSP
WORD $0xd65f03c0
	// 31184: rtp_wire::packet::putting::put_element_copy::<=1>
DWORD $0x540000a2eb03005f
DWORD $0xa900fc1f52800028
DWORD $0xd65f03c0f9000008
DWORD $0x5400010072001c9f
DWORD $0x54000169f103fcdf
DWORD $0x5280002952800048
DWORD $0xa9002009f900081f
DWORD $0x52800028d65f03c0
DWORD $0xf900081f52800029
DWORD $0xd65f03c0a9002009
WORD $0xf81003fe
	SUB $256, RSP
DWORD $0xa90b6ffef90053fd
DWORD $0xa90d5ff8a90c67fa
DWORD $0xa90f4ff4a90e57f6
DWORD $0x54000062f100307f
DWORD $0x1400000c52800068
DWORD $0x3101051f39c00028
DWORD $0x92401d1b5400010c
DWORD $0x910033aed37e0f7d
DWORD $0x54000202eb0e0068
DWORD $0x1400000252804068
DWORD $0x5280002952802068
DWORD $0xa9002009f900081f
DWORD $0xf94053fda94f4ff4
DWORD $0xa94d5ff8a94e57f6
DWORD $0xa94b6ffea94c67fa
	ADD $256, RSP
WORD $0xd65f03c0
	SUB $256, RSP
WORD $0x8b0e0029
DWORD $0x3720021bf90057e9
DWORD $0x910033af2a1f03f4
DWORD $0x12001c89d10004c8
DWORD $0x7a4f3922f100411f
DWORD $0x72001cff1a9f368d
DWORD $0x394443e854000360
DWORD $0x7100051f12001d08
DWORD $0x5280002d54000201
DWORD $0xf100110914000015
DWORD $0x5280606854000062
DWORD $0x8b0e002b17ffffdf
DWORD $0x39400d6a39400968
DWORD $0xaa0a0908d376d508
DWORD $0x54000ec2eb08013f
DWORD $0x17ffffd652808068
DWORD $0x12001c88340000ed
DWORD $0x7100391faa1f03ed
DWORD $0x9a888508528000a8
DWORD $0xb9007fed1400017a
DWORD $0x2a1f03ea372001db
DWORD $0xaa1f03ecaa1f03fa
DWORD $0x2a1f03f6aa1f03f8
DWORD $0x2a0d03f48b0f0028
DWORD $0xa90623fff9003bff
DWORD $0x528000282a1f03f0
DWORD $0x14000151aa1a03e9
DWORD $0x8b080039110043a8
DWORD $0xa9050ff8cb0801f8
DWORD $0x34000cf4f90037f9
DWORD $0x2a1f03e7b4001bf8
DWORD $0xaa1f03f1aa1f03fa
DWORD $0xaa1803e9aa1f03f0
DWORD $0xf9003bffaa1903e8
DWORD $0xf9000bfdf90033ff
DWORD $0xaa0903f7a9023bef
DWORD $0xf9001bf1f90023f0
DWORD $0x39400109b9003be7
DWORD $0xaa1703e934000069
DWORD $0xf1000aff1400002b
DWORD $0x54000140f90027fa
DWORD $0x54001cc0f10006ff
DWORD $0x54000108f1000eff
DWORD $0x350000c939400509
DWORD $0x3500008939400909
DWORD $0x39400509140000cc
DWORD $0xaa0103f5340018e9
DWORD $0x91000500aa0003f9
DWORD $0x2a1403fad10006e1
DWORD $0xaa0203f42a0d03fd
DWORD $0xaa0503f62a0403f3
DWORD $0x97ffe349aa0603f8
DWORD $0xaa1803e6b40018e1
DWORD $0xaa1403e2a9450ff8
DWORD $0x2a1d03ed2a1a03f4
DWORD $0xf9400bfda9423bef
DWORD $0xf9401bf1a9446bf0
DWORD $0xaa0103e9b9403be7
DWORD $0xaa1903e0aa0003e8
DWORD $0xaa1503e1aa1603e5
DWORD $0xf100093f2a1303e4
DWORD $0x3940050a54001a03
DWORD $0xeb0b01299100094b
DWORD $0x3940010c54001983
DWORD $0x6b24019f8b0b0108
DWORD $0x8b0a034a540000c0
DWORD $0x9100095aaa0903f7
DWORD $0x140000c3b5fff8a9
DWORD $0xaa1f03f7cb09030c
DWORD $0xcb0a0190cb09030b
DWORD $0x5280002791000631
DWORD $0xf9003bebd1000a0a
DWORD $0xb5fff6c9f90033ea
DWORD $0x8b0e0029140000b8
DWORD $0x8b0801c8529bd7cb
DWORD $0x9100110f7940012a
DWORD $0x7100413f12146d49
DWORD $0x6b0b015f1a9f17f4
DWORD $0x7100413f54ffed40
DWORD $0xaa1f03ed54ffed00
DWORD $0x140000ff52800088
DWORD $0x2a1f03e7b4000f38
DWORD $0xaa1f03f1aa1f03fa
DWORD $0xaa1803f6aa1f03f0
DWORD $0xf90033fff9003bff
DWORD $0x39400329b9003be7
DWORD $0x12001d0811004128
DWORD $0x540000827100811f
DWORD $0xaa1603e834000129
DWORD $0x92400d281400002f
DWORD $0xeb0a02c89100090a
DWORD $0xaa1603e854000622
DWORD $0xf1000adf1400002d
DWORD $0xf10006df54000140
DWORD $0xf1000edf54000da0
DWORD $0x3940072854000108
DWORD $0x39400b28350000c8
DWORD $0x1400006835000088
DWORD $0x34000be839400728
DWORD $0x2a1403faa9046bf0
DWORD $0xaa0003f8aa0103f4
DWORD $0xd10006c191000720
DWORD $0xaa0503f5a902c7ee
DWORD $0xa901bfe2aa0603f3
DWORD $0x97ffe2dfb9003fe4
DWORD $0xaa0103e8b4000d21
DWORD $0x39400009aa0003f9
DWORD $0xaa1403e1aa1803e0
DWORD $0xa9450ff82a1a03f4
DWORD $0x294713e7b9407fed
DWORD $0xaa1303e6a941bfe2
DWORD $0xaa1503e5a942c7ee
DWORD $0x7103bd3fa9446bf0
DWORD $0x12000d2a540008e8
DWORD $0xeb0a01081100094a
DWORD $0xaa0803f654000863
DWORD $0x8b0a033953047d28
DWORD $0x540004a06b24011f
DWORD $0x8b1a015a34000088
DWORD $0x1400003eb5fff7b6
DWORD $0xaa1103e0a9046be0
DWORD $0xf9000bfdaa0603f5
DWORD $0xaa0103f7aa0503f3
DWORD $0xaa0203f8f9001bfb
DWORD $0xb9003ff4aa0e03fd
DWORD $0xaa0f03fb2a0403f4
DWORD $0x97ffe2c7aa1003fa
DWORD $0xaa1803e2aa1a03f0
DWORD $0xa944e3fa2a1403e4
DWORD $0x294753e7aa1b03ef
DWORD $0xf9402fe3aa1d03ee
DWORD $0xf9401bfbb9407fed
DWORD $0xaa0003f1f9400bfd
DWORD $0xaa1703e1f94023e0
DWORD $0xaa1503e6aa1303e5
DWORD $0x1400001eb5fff3b6
DWORD $0xcb160308cb160309
DWORD $0xf9003be8aa1f03f7
DWORD $0x91000631cb0a0128
DWORD $0x5280002791000510
DWORD $0xb5fff236f90033e8
DWORD $0xf90033ff14000030
DWORD $0x2a1f03e7aa1f03f0
DWORD $0xaa1f03f1f9003bff
DWORD $0xaa1f03f7aa1f03fa
DWORD $0xf94027fa14000028
DWORD $0x1400002552800057
DWORD $0x52800077f94027fa
DWORD $0xaa1603f714000022
DWORD $0x5280007714000020
DWORD $0xaa1f03f71400001e
DWORD $0xf9402fe31400001c
DWORD $0xf9400bfd2a1d03ed
DWORD $0xaa1803e6aa1903e0
DWORD $0xaa1503e1aa1603e5
DWORD $0xaa1403e22a1303e4
DWORD $0xf94027fa1400000c
DWORD $0xf9402fe314000010
DWORD $0xaa1603f7b9403fe4
DWORD $0xb9407fedf9400fe2
DWORD $0xaa1303e6aa1803e0
DWORD $0xaa1403e1aa1503e5
DWORD $0xa9423bef2a1a03f4
DWORD $0xf94023f0a944e3fa
DWORD $0xb9403be7f9401bf1
DWORD $0x1a9f17ea710004ff
DWORD $0x1a9f17f66b0d029f
DWORD $0x710004ff54000241
DWORD $0xf100063f54000201
DWORD $0xf9403be8540001c1
DWORD $0xeb06011fcb100108
DWORD $0xf94057e854000141
DWORD $0xb4001c8691001108
DWORD $0x54001701710004df
DWORD $0xaa0303f5394000a9
DWORD $0x140001a138306909
DWORD $0xcb17030c6b1401bf
DWORD $0xb4ffd9fa54ffda00
DWORD $0xf94037e2f9000fe2
DWORD $0xa90407e0aa0c03e3
DWORD $0x2a0d03e12a1403e0
DWORD $0x2a0403f9b9003ff4
DWORD $0xaa0503f7aa0603f6
DWORD $0xaa0e03faaa1a03f8
DWORD $0xaa1d03f5aa0f03f4
DWORD $0xaa0c03f32a0a03fd
DWORD $0xaa1a03ee97ffeacc
DWORD $0x2a0003e8aa1803fa
DWORD $0xaa0103e9a9450ff8
DWORD $0xaa1403efa94407e0
DWORD $0xb9403ff4f9400fe2
DWORD $0x2a1d03eaaa1303ec
DWORD $0x2a1903e4aa1503fd
DWORD $0xaa1603e6aa1703e5
DWORD $0x528000302a1f03f6
DWORD $0x7100051f12001d08
DWORD $0xb9407ff354000fe1
DWORD $0x7100027f52800028
DWORD $0x8b0900c89a88050b
DWORD $0x91000d088b0b0108
DWORD $0xeb08031f927ef508
DWORD $0x321e3fe89a888317
DWORD $0x54000089eb0802ff
DWORD $0x528000e8aa1f03ed
DWORD $0x8b1701c814000008
DWORD $0x91001108cb0f0069
DWORD $0xeb0d005f8b09010d
DWORD $0x52800108540000a2
DWORD $0xf900080d52800029
DWORD $0xa90407e017fffe55
DWORD $0xaa0f03e1aa0103e0
DWORD $0xaa0803e3aa0303e2
DWORD $0xa90517ed290713f0
DWORD $0x2a0a03f9aa0c03f5
DWORD $0xf90037e6f9001beb
DWORD $0x531a66e897ffeba7
DWORD $0xf94057e9f94027ea
DWORD $0x2a57290812181d08
DWORD $0x3700015679000528
DWORD $0x7100027f39400148
DWORD $0x1284282b52800209
DWORD $0x1a890169321c0108
DWORD $0xf94057e839000148
DWORD $0xf94057e879000109
DWORD $0xf9402fe1f94037e2
DWORD $0x91001116b9403fe5
DWORD $0xf94033e8b4000198
DWORD $0x9a9511037100033f
DWORD $0x9a951119f9403be8
DWORD $0x8b190108cb030348
DWORD $0x54000121eb15011f
DWORD $0x1400000fcb1902a8
DWORD $0x36000973f94023e0
DWORD $0x52800049f94057e8
DWORD $0x1400004c39001502
DWORD $0xaa1603e12a1403e0
DWORD $0xaa1903e3aa0303e2
DWORD $0x97ffec00aa1803e4
DWORD $0xaa0103e8aa0003e3
DWORD $0xb9403be9f9402bf5
DWORD $0x2a1403e034000149
DWORD $0xaa1703e2aa1603e1
DWORD $0xaa0803e5aa1903e4
DWORD $0xaa0003e397ffece0
DWORD $0xaa0003f9aa0103e8
DWORD $0xf9402feaf94037e9
DWORD $0xb9403feb5280002c
DWORD $0x2a1303e0910203e5
DWORD $0xaa0303e2aa1603e1
DWORD $0xaa0803e4aa1903e3
DWORD $0xf90043ec390223eb
DWORD $0xb9008fffb80893ff
DWORD $0x97ffef23a90927ea
DWORD $0xeb0002e9aa0003e8
DWORD $0x54002069f94023e0
DWORD $0x54001dedf1000533
DWORD $0x54001e40f100093f
DWORD $0x54001e40f1000d3f
DWORD $0x54001ce0f100113f
DWORD $0xf94037e1140000f3
DWORD $0x2a1403e0aa0003f3
DWORD $0x97ffeaf3aa1803e2
DWORD $0x528000a92a0003e8
DWORD $0x7100011faa1303e0
DWORD $0x9a891528aa1f03ed
DWORD $0xf10008df17ffff8e
DWORD $0x394000a9540003c8
DWORD $0xaa0303f58b100108
DWORD $0x394004a939000109
DWORD $0x140000e539000509
DWORD $0x5280002953041ca8
DWORD $0xb0201082a051108
DWORD $0xf9402bf551000505
DWORD $0x390002c572001c48
DWORD $0x7100051f540008a0
DWORD $0x3940002854000081
DWORD $0x140000b738296ac8
DWORD $0x54000688f100085f
DWORD $0x8b0902c939400028
DWORD $0x3940042839000128
DWORD $0x140000af39000528
DWORD $0x54000141f1000cdf
DWORD $0x8b100108394000a9
DWORD $0x39000109aa0303f5
DWORD $0x39000509394004a9
DWORD $0x39000909394008a9
DWORD $0x8b100108140000c4
DWORD $0xeb06013fcb050109
DWORD $0xf10020df540002e2
DWORD $0x8b010208540000e3
DWORD $0xcb0501088b1d0108
DWORD $0xf100811f91004108
DWORD $0xaa1f03ec54000742
DWORD $0x92400f698b0c0208
DWORD $0x8b0c00a98b090908
DWORD $0xcb0c00c88b01010a
DWORD $0x3840152b9100414a
DWORD $0x3800154bf1000508
DWORD $0xaa0303f554ffffa1
DWORD $0xaa0003f3140000aa
DWORD $0xaa0503e1aa0803e0
DWORD $0xaa0303f5aa0603e2
DWORD $0xaa1303e09400472e
DWORD $0xf1000c5f140000a2
DWORD $0x3940002854000121
DWORD $0x390001288b0902c9
DWORD $0x3900052839400428
DWORD $0x3900092839400828
DWORD $0x8b0902c814000078
DWORD $0xeb02017fcb01010b
DWORD $0xf100205f540000a2
DWORD $0xaa1f03e854000102
DWORD $0xaa0803e014000065
DWORD $0xf94037e294004718
DWORD $0x1400006bf94023e0
DWORD $0xaa1b03ee8b0a0128
DWORD $0xcb0101088b1d0108
DWORD $0xf100811f91004108
DWORD $0xa9442be0540002a2
DWORD $0xa94507f5aa1f03e8
DWORD $0x14000054aa0e03fb
DWORD $0xaa1b03f1aa1003e2
DWORD $0xaa0503eaaa0103e9
DWORD $0xaa0603ebaa0003e8
DWORD $0x54000202f10080df
DWORD $0xaa0b03e6aa1f03ec
DWORD $0xaa0903e1aa0a03e5
DWORD $0xaa0203f0aa1103fb
DWORD $0xf100805f1400007b
DWORD $0xf94037e254000322
DWORD $0xaa1f03e8f9402fe1
DWORD $0xaa0e03fbf94027ea
DWORD $0x8b1d004e1400002a
DWORD $0x927b096c927d056d
DWORD $0x9100414e8b0901cf
DWORD $0x910081ef927b0970
DWORD $0xf1008210ad7f85c0
DWORD $0xad3f85e0910081ce
DWORD $0x54ffff61910081ef
DWORD $0x54000b81eb0c017f
DWORD $0xaa0803e0f9402ff5
DWORD $0xf94027ea14000056
DWORD $0xf94037ed8b1d012c
DWORD $0xf9402fea8b0a018c
DWORD $0x927b09a8927d05ab
DWORD $0x927b09ad9100818c
DWORD $0xad7f85409100414a
DWORD $0x9100814af10081ad
DWORD $0x9100818cad3f8580
DWORD $0xf94037e254ffff61
DWORD $0xa94507f5a9442be0
DWORD $0x54000420eb08005f
DWORD $0xb400028baa0e03fb
DWORD $0x8b090108aa0803eb
DWORD $0x8b0c090c92400f6c
DWORD $0x8b0a018c927d1048
DWORD $0x8b0b002bcb08016a
DWORD $0xfc4085609100418c
DWORD $0xfc008580b100214a
DWORD $0xf94037e254ffffa1
DWORD $0xa94507f5a9442be0
DWORD $0xeb08005faa0e03fb
DWORD $0x8b09010954000180
DWORD $0x8b0b092992400f6b
DWORD $0xcb0800498b0a012a
DWORD $0x9100414a8b080028
DWORD $0xf10005293840150b
DWORD $0x54ffffa13800154b
DWORD $0x8b020108f9401be8
DWORD $0x540003a9eb0802e9
DWORD $0x5400012df1000533
DWORD $0x54000180f100093f
DWORD $0x54000180f1000d3f
DWORD $0x540001c1f100113f
DWORD $0x14000013b8286adf
DWORD $0xf100053fb4000249
DWORD $0x38286adf54000121
DWORD $0x78286adf1400000e
DWORD $0x8b0802c81400000c
DWORD $0x7900011f3900091f
DWORD $0x8b0802d414000008
DWORD $0xaa1303e22a1f03e1
DWORD $0x940046ddaa1403e0
DWORD $0x38336a9ff94023e0
DWORD $0xf900081fa900541f
DWORD $0xf9402fe317fffcf6
DWORD $0xaa0b03e6aa0803e0
DWORD $0xaa0903e1aa0a03e5
DWORD $0xaa0203f0aa1103fb
DWORD $0xaa0c03eeb4ffe80d
DWORD $0x92400f6d8b0c020c
DWORD $0x927d10cc8b0d098d
DWORD $0xcb0c01cd8b0101af
DWORD $0x910041ef8b0e00ae
DWORD $0xb10021adfc4085c0
DWORD $0x54ffffa1fc0085e0
DWORD $0xaa0b03e6f9402fe3
DWORD $0xaa0803e0eb0c017f
DWORD $0xaa0903e1aa0a03e5
DWORD $0xaa0203f0aa1103fb
DWORD $0x17ffff3454ffe541
	ADD $256, RSP
	// 34612: rtp_wire::packet::compacting::compact_copy::<=1>
WORD $0xf81b03fe
	SUB $80, RSP
WORD $0xa90167fe
DWORD $0xa90357f6a9025ff8
DWORD $0xf100305fa9044ff4
DWORD $0x2a1f03e854000062
DWORD $0x39c000281400000c
DWORD $0x5400010c3101051f
DWORD $0xd37e0d0992401d08
DWORD $0xeb09004a91003129
DWORD $0x52800048540001e2
DWORD $0x5280002814000002
DWORD $0x3900040852800029
DWORD $0xf900041f39000009
DWORD $0xa94357f6a9444ff4
DWORD $0xa94167fea9425ff8
	ADD $80, RSP
WORD $0xd65f03c0
	SUB $80, RSP
WORD $0x37200148
DWORD $0xf90004027900001f
DWORD $0xa94357f6a9444ff4
DWORD $0xa94167fea9425ff8
	ADD $80, RSP
WORD $0xd65f03c0
	SUB $80, RSP
WORD $0xf100114a
DWORD $0x5280006854000062
DWORD $0x8b09003717ffffe8
DWORD $0x39400eeb39400ae8
DWORD $0xaa0b0908d376d508
DWORD $0x54000062eb08015f
DWORD $0x17ffffdf52800088
DWORD $0x529bd7cb794002ea
DWORD $0x12146d4a6b0b015f
DWORD $0x7100415f54000060
DWORD $0x7100415f54fffc81
DWORD $0xaa0103f491001136
DWORD $0x8b1600211a9f17e9
DWORD $0x2a0903e0aa0003f8
DWORD $0xaa0803e2aa0203f5
DWORD $0x97fff0d78b0802d3
DWORD $0xaa1403e091000c19
DWORD $0x927ef728aa1303e1
DWORD $0x8b0802d6aa1503e2
DWORD $0x97ffe9e2aa1603e3
DWORD $0xcb1302a9531a6728
DWORD $0x790006e8330a4728
DWORD $0x7900031f8b160128
DWORD $0xa9444ff4f9000708
DWORD $0xa9425ff8a94357f6
WORD $0xa94167fe
	ADD $80, RSP
WORD $0xd65f03c0
	// 34988: rtp_route::slots::slot_of
WORD $0x39406028
DWORD $0x540007c17100051f
WORD $0xf81b03fe
	SUB $80, RSP
DWORD $0xa9025ff8a90167fe
DWORD $0xa9044ff4a90357f6
DWORD $0xf9400833f9400028
DWORD $0x3940642a12001c58
DWORD $0xd37e0d2939400109
DWORD $0x8b09010891004129
DWORD $0x3400064acb090274
DWORD $0x2a1f03f7b4000df4
DWORD $0xaa1f03f6aa1f03f5
DWORD $0x39400109aa1403e1
DWORD $0xf100083f350002a9
DWORD $0xf100043f54000140
DWORD $0xf1000c3f54000aa0
DWORD $0x3940050954000108
DWORD $0x39400909350000c9
DWORD $0x1400004e35000089
DWORD $0x3400098939400509
DWORD $0xd1000421aa0003f9
DWORD $0x97ffe00591000500
DWORD $0xaa0003e8b40008c1
DWORD $0xf100083faa1903e0
DWORD $0x3940050954000863
DWORD $0xeb0a00219100092a
DWORD $0x3940010b540007e3
DWORD $0x6b18017f8b0a0108
DWORD $0xb5fffc0154000060
DWORD $0xcb01029514000039
DWORD $0xcb0902b652800037
DWORD $0x14000036b5fffb61
	ADD $80, RSP
WORD $0xb900001f
DWORD $0xd65f03c0f800401f
	SUB $80, RSP
WORD $0xb40007d4
DWORD $0xaa1f03f52a1f03f7
DWORD $0xaa1403e1aa1f03f6
DWORD $0x350002c939400109
DWORD $0x54000140f100083f
DWORD $0x54000480f100043f
DWORD $0x54000108f1000c3f
DWORD $0x350000c939400509
DWORD $0x3500008939400909
DWORD $0x394005091400001d
DWORD $0xaa0003f934000369
DWORD $0x91000500d1000421
DWORD $0xb40002a197ffdfd4
DWORD $0xaa0003e839400009
DWORD $0x7103bd3faa1903e0
DWORD $0x12000d2a54000228
DWORD $0xeb0a00211100094a
DWORD $0x6b49131f540001a3
DWORD $0x540000608b0a0108
DWORD $0x14000008b5fffc01
DWORD $0x52800037cb010295
DWORD $0x91000536cb0a02a9
DWORD $0x14000004b5fffb41
DWORD $0x710006ffaa1903e0
DWORD $0x4b1402c8540001e1
DWORD $0xb1301084b1602a9
DWORD $0x52800029aa098108
DWORD $0xf8004008b9000009
DWORD $0xa94357f6a9444ff4
DWORD $0xa94167fea9425ff8
	ADD $80, RSP
WORD $0xd65f03c0
	SUB $80, RSP
WORD $0xb900001f
DWORD $0xa9444ff4f800401f
DWORD $0xa9425ff8a94357f6
WORD $0xa94167fe
	ADD $80, RSP
WORD $0xd65f03c0
	// 35540: rtp_route::making::make_by_calls::<#d57726891005992a>
WORD $0xd10743f0
WORD $0xf900021e
	SUB $464, RSP
DWORD $0xa9186ffef900bbfd
DWORD $0xa91a5ff8a91967fa
DWORD $0xa91c4ff4a91b57f6
DWORD $0xaa0203f46f00e400
DWORD $0xf9400822aa0103e8
DWORD $0x3940611af9400021
DWORD $0xaa0003f33940651b
DWORD $0xeb02009fa90cffff
DWORD $0xad0203e0ad0103e0
DWORD $0xad0403e0ad0303e0
DWORD $0x540000a2ad0503e0
DWORD $0x528001092a1f03e8
DWORD $0x140000445280006a
DWORD $0xaa0403f6d100c448
DWORD $0xb100891faa0303f5
DWORD $0xf900bfe5aa0203f7
DWORD $0xaa1503e0540000a8
DWORD $0xaa1703e297fff8cb
DWORD $0x3dc000201400000a
DWORD $0x3d8002a0f100845f
DWORD $0x3dc0042054000063
DWORD $0xd10040483d8006a0
DWORD $0x3ca86aa03ce86820
DWORD $0x3940a299f9400298
DWORD $0x3940a69d9103c3e0
DWORD $0xaa1803e1a9107fe2
DWORD $0x390423faa90f0bf5
DWORD $0x97fff0fd390427fb
DWORD $0xf940129836000320
DWORD $0xf90083ffa90f7fff
DWORD $0xf940069ab40008d8
DWORD $0xaa1703e3f9400e9b
DWORD $0x9103c3e0a9401b68
DWORD $0x3940a2873940a689
DWORD $0x39406364aa1503e1
DWORD $0x8b080345aa1603e2
DWORD $0x97fffb73390043e9
DWORD $0xf9407fe33943c3e8
DWORD $0xf1000718350001a8
DWORD $0x54fffe219100837b
DWORD $0x7100073f14000033
DWORD $0x3500031d54000321
DWORD $0x2a1f03e82a1f03e9
DWORD $0x5280004aaa1f03e2
DWORD $0xf94083e214000005
DWORD $0x2a0303e9d348fc68
DWORD $0x5280002b5280006a
DWORD $0xa9002a6b39004269
DWORD $0xf9000e6239004668
DWORD $0xf940bbfda95c4ff4
DWORD $0xa95a5ff8a95b57f6
DWORD $0xa9586ffea95967fa
	ADD $464, RSP
WORD $0xd65f03c0
	SUB $464, RSP
WORD $0x910363e0
DWORD $0xaa1603e2aa1503e1
DWORD $0x97fffb2caa1703e3
DWORD $0xf94073e9394363e8
DWORD $0xf94077e2340000a8
DWORD $0x5280006ad348fd28
DWORD $0x5280202817ffffe7
DWORD $0xaa1803e19103c3e0
DWORD $0xaa0903f7a90f27f5
DWORD $0x97fff0b7a91023e9
DWORD $0xa90f7ffff9401298
DWORD $0xb5fff798f90083ff
DWORD $0x910323e0aa1703e3
DWORD $0xaa0303e2aa1503e1
DWORD $0x394323e897fffe8f
DWORD $0xf9406bf6350009c8
DWORD $0x54000963f10032df
DWORD $0x3101051f39c002a8
DWORD $0x92401d095400090c
DWORD $0x91003108d37e0d28
DWORD $0x54000863eb0802ca
DWORD $0x2a1f03f837200089
DWORD $0x140000132a1f03f7
DWORD $0x540007a3f100114b
DWORD $0x394009498b0802aa
DWORD $0xd376d52939400d4c
DWORD $0xeb09017faa0c0929
DWORD $0x7940014a540006c3
DWORD $0x910011088b090108
DWORD $0x7100417f12146d4b
DWORD $0x1a9f17f7529bd7cb
DWORD $0x1a9f16f86b0b015f
DWORD $0xa90a5bf56f00e400
DWORD $0xa941d688f9005be8
DWORD $0x3902e7f73902e3f8
DWORD $0xf9006fffb900e3ff
DWORD $0xad0883e0ad0783e0
DWORD $0xad0a83e0ad0983e0
DWORD $0x91006114b40001d5
DWORD $0x384206829103c3fa
DWORD $0x910283e1910363e0
DWORD $0x394363e897fffeb7
DWORD $0x540002e17100051f
DWORD $0xf10006b5f84dc3e8
DWORD $0x54fffec1f8008748
DWORD $0xf940bfe8ad4987e0
DWORD $0xad4797e4ad4a8fe2
DWORD $0xad0307e0ad489fe6
DWORD $0xad0117e4ad040fe2
DWORD $0xad001504ad021fe6
DWORD $0xad020500ad011d06
DWORD $0xa9005a7fad030d02
DWORD $0x3900467739004278
DWORD $0x17ffff8df9000e7f
WORD $0xd4200020
	ADD $464, RSP
	// 36416: rtp_route::walk::write_kept::<#687967002a58489c>
WORD $0xf81703fe
	SUB $144, RSP
DWORD $0xa90567faa9046ffe
DWORD $0xa90757f6a9065ff8
DWORD $0xf94053e8a9084ff4
DWORD $0xaa0503f7aa0603f4
DWORD $0xaa0103f0aa0203f6
DWORD $0xa90323fdaa0003f5
DWORD $0x2a030088a94044fd
DWORD $0x540000e072001d1f
DWORD $0x2a0403f8b40000f4
DWORD $0x910042a82a0303f9
DWORD $0x14000013f90017e8
DWORD $0x52800020b5002a14
DWORD $0xa9484ff4aa1603e1
DWORD $0xf9401bfda94757f6
DWORD $0xa94567faa9465ff8
WORD $0xa9446ffe
	ADD $144, RSP
WORD $0xd65f03c0
	SUB $144, RSP
DWORD $0x383b6aa839400028
DWORD $0x29005f5b8b170376
DWORD $0xb4fffe14aa1303f7
DWORD $0x340001e8394002e8
DWORD $0x540004c072001f3f
DWORD $0x54fffd43f1000a9f
DWORD $0x91000b48394006fa
DWORD $0x54fffcc3eb080294
DWORD $0x384026e88b0802f3
DWORD $0x3868693bf94003a9
DWORD $0x17ffffef3500057b
DWORD $0x54000140f1000a9f
DWORD $0x54fffb80f100069f
DWORD $0x54000108f1000e9f
DWORD $0x350000c8394006e8
DWORD $0x3500008839400ae8
DWORD $0x394006e817ffffd5
DWORD $0xd100068134fffa68
DWORD $0xaa1103fa910006e0
DWORD $0x97ffde7faa1003f3
DWORD $0xaa0103f4b4fff9a1
DWORD $0xaa1303f0aa0003f7
DWORD $0x72001f3faa1a03f1
DWORD $0x394002e954fffb81
DWORD $0x54fff8887103bd3f
DWORD $0x9100090892400d28
DWORD $0x54fff803eb080294
DWORD $0xf94003aad344fd29
DWORD $0x3869695b8b0802f3
DWORD $0x71003f7f34fff95b
DWORD $0xd100051a910006f7
DWORD $0x387b4a28540016e2
DWORD $0xf9401fe9b4000348
DWORD $0x8b080d3ad1000508
DWORD $0x35003ea9b9400349
DWORD $0x8b08152af9400fa9
DWORD $0x8b1702c8f9400557
DWORD $0xeb08021f91000908
DWORD $0xf94007a854003dc3
DWORD $0x72001f1ff9400149
DWORD $0x540002c03940614a
DWORD $0x3900016a8b1602ab
DWORD $0x390005775280004a
DWORD $0x8b16015b8b090101
DWORD $0x14000042b5000317
DWORD $0x910009088b1a02c8
DWORD $0x54003ba3eb08021f
DWORD $0x5400036072001f1f
DWORD $0x3900011b8b1602a8
DWORD $0x528000483900051a
DWORD $0xb50003ba8b16011b
DWORD $0x53047d4b1400006a
DWORD $0xb0a02ea2a0a116a
DWORD $0x38366aaa5100054a
DWORD $0x8b0901015280002a
DWORD $0xb40005978b16015b
DWORD $0x54fff1e0f10006ff
DWORD $0x540003c8f1000aff
DWORD $0x8b1b02a939400028
DWORD $0x3940042839000128
DWORD $0x17ffff8939000528
DWORD $0x2a1b110853047f68
DWORD $0x510005080b080348
DWORD $0x5280002838366aa8
DWORD $0xb40009fa8b16011b
DWORD $0x540000a1f100075f
DWORD $0x8b1a0376394002e8
DWORD $0x17ffff7d383b6aa8
DWORD $0x54000788f1000b5f
DWORD $0x8b1b02a9394002e8
DWORD $0x390001288b1a0376
DWORD $0x39000528394006e8
DWORD $0xf1000eff17ffff74
DWORD $0x3940002854000121
DWORD $0x390001288b1b02a9
DWORD $0x3900052839400428
DWORD $0x3900092839400828
DWORD $0x8b1b02ab17ffff68
DWORD $0xeb17017fcb01016b
DWORD $0xf10022ff540002a2
DWORD $0x8b1502cb540000e3
DWORD $0xcb08016b8b0a016b
DWORD $0xf100817fcb09016b
DWORD $0xaa1f03eb54000962
DWORD $0x8b09016d8b16016c
DWORD $0x8b0a018acb0b02e9
DWORD $0x8b0a02aa8b0d0108
DWORD $0xf10005293840150b
DWORD $0x54ffffa13800154b
DWORD $0x8b1b02a017ffff50
DWORD $0xaa1003f6aa1703e2
DWORD $0xaa1303f9b90023f9
DWORD $0x2a1803f5aa1503f3
DWORD $0xaa1103fdaa1d03f8
DWORD $0xaa1d03f1940043c4
DWORD $0x2a1503f8aa1803fd
DWORD $0xaa1903f3aa1303f5
DWORD $0xaa1603f0b94023f9
DWORD $0xf1000f5f17ffff3e
DWORD $0x394002e854000141
DWORD $0x8b1a03768b1b02a9
DWORD $0x394006e839000128
DWORD $0x39400ae839000528
DWORD $0x17ffff3539000928
DWORD $0xcb1701298b1b02a9
DWORD $0x54000282eb1a013f
DWORD $0x540000c3f100235f
DWORD $0x8b0801298b1502c9
DWORD $0xf100813fcb170129
DWORD $0xaa1f03e954000462
DWORD $0x8b0802ab8b16012a
DWORD $0x8b0902e9cb090348
DWORD $0x3840152b8b0a016a
DWORD $0x3800154bf1000508
DWORD $0x8b1a037654ffffa1
DWORD $0x8b1b02a017ffff1e
DWORD $0xaa1a03e2aa1703e1
DWORD $0xaa1103f7aa1003f6
DWORD $0xaa1703f194004394
DWORD $0x8b1a0376aa1603f0
DWORD $0xf10082ff17ffff14
DWORD $0xaa1f03eb540001e2
DWORD $0x2a1803e01400001d
DWORD $0xaa1a03e22a1b03e1
DWORD $0x97fff6eaa901c3f1
DWORD $0x35ffe880a941c3f1
DWORD $0xf100835f14000141
DWORD $0xaa1f03e954000442
DWORD $0xf94017ee1400002f
DWORD $0x927d06ec8b09010d
DWORD $0x910041ad927beaeb
DWORD $0x8b1b01ce927beaef
DWORD $0xf10081efad7f85a0
DWORD $0xad3f85c0910081ad
DWORD $0x54ffff61910081ce
DWORD $0x54ffde60eb0b02ff
DWORD $0xaa0b03ecb4fff30c
DWORD $0x8b16018d927df2eb
DWORD $0xcb0b018c8b09018e
DWORD $0x8b0e010d8b0a01af
DWORD $0xfc4085a08b0f02ae
DWORD $0xfc0085c0b100218c
DWORD $0xeb0b02ff54ffffa1
DWORD $0x17ffff8954ffdc80
DWORD $0x927d074af94017ec
DWORD $0x910042eb927beb49
DWORD $0x8b1b018c927beb4d
DWORD $0xf10081adad7f8560
DWORD $0xad3f85809100816b
DWORD $0x54ffff619100818c
DWORD $0x54fff700eb09035f
DWORD $0xaa0903ebb4fff5ca
DWORD $0x8b0802ad927df349
DWORD $0xcb09016a8b16016c
DWORD $0x8b0c01ac8b0b02eb
DWORD $0xb100214afc408560
DWORD $0x54ffffa1fc008580
DWORD $0x54fff540eb09035f
DWORD $0x3940002817ffffa0
DWORD $0x8b19031638396aa8
DWORD $0x8b1a02f729006379
DWORD $0xb4ffd67452800020
DWORD $0x35000339394002f9
DWORD $0x54000140f1000a9f
DWORD $0x54ffd580f100069f
DWORD $0x54000108f1000e9f
DWORD $0x350000c8394006e8
DWORD $0x3500008839400ae8
DWORD $0x394006e817fffea5
DWORD $0xd100068134ffd468
DWORD $0xaa1103f8910006e0
DWORD $0x97ffdd4faa1003f3
DWORD $0x39400019b4ffd3a1
DWORD $0xaa0003f7aa0103f4
DWORD $0xaa1803f1aa1303f0
DWORD $0x54ffd2c87103bf3f
DWORD $0x11000a7a12000f33
DWORD $0x54ffd243eb1a0294
DWORD $0xf94003a92a1903e8
DWORD $0x38686938d344fd08
DWORD $0x71003f1fb4fffb38
DWORD $0x54000e62d100075b
DWORD $0xb400044838786a28
DWORD $0xd1000508f9401fe9
DWORD $0xb94003698b080d3b
DWORD $0xf9400fa935001909
DWORD $0xf94005388b081529
DWORD $0x910009088b1802c8
DWORD $0x54001823eb08021f
DWORD $0xf94007a83940612a
DWORD $0xf9400129910006d9
DWORD $0x8b09010153047d4b
DWORD $0xb0a030a2a0a116a
DWORD $0x38366aaa5100054a
DWORD $0xf100071fb40005f8
DWORD $0xf1000b1f54fff6e0
DWORD $0x3940002854000428
DWORD $0x390001288b1902a9
DWORD $0x3900052839400428
DWORD $0x8b1b02c817ffffb1
DWORD $0xeb08021f91000908
DWORD $0x53047f0854001503
DWORD $0x2a181109f100077f
DWORD $0xb090369910006e8
DWORD $0x38366aa951000529
DWORD $0x540000a1910006c9
DWORD $0x8b1a02d639400108
DWORD $0x17ffffa238296aa8
DWORD $0x540006487100067f
DWORD $0x8b0902a9394006e8
DWORD $0x390001288b1a02d6
DWORD $0x3900052839400ae8
DWORD $0xf1000f1f17ffff99
DWORD $0x3940002854000121
DWORD $0x390001288b1902a9
DWORD $0x3900052839400428
DWORD $0x3900092839400828
DWORD $0x8b1902aa17ffff8d
DWORD $0xeb18015fcb01014a
DWORD $0xf100231f540002a2
DWORD $0x910006aa540000e3
DWORD $0xcb08014a8b16014a
DWORD $0xf100815fcb09014a
DWORD $0xaa1f03ea54000822
DWORD $0x8b16014c8b09014b
DWORD $0x910006aacb0a0309
DWORD $0x8b0c014a8b0b0108
DWORD $0xf10005293840150b
DWORD $0x54ffffa13800154b
DWORD $0x8b1902a017ffff75
DWORD $0xaa1003f3aa1803e2
DWORD $0x940042b1aa1103f6
DWORD $0xaa1303f0aa1603f1
DWORD $0xf1000f7f17ffff6d
DWORD $0x394006e854000241
DWORD $0x8b1a02d68b0902a9
DWORD $0x39400ae839000128
DWORD $0x39400ee839000528
DWORD $0x17ffff6439000928
DWORD $0x2a1f03e0d1000742
DWORD $0xa901c3f12a1803e1
DWORD $0xa941c3f197fff601
DWORD $0x1400005835fff100
DWORD $0xcb0800098b0902a0
DWORD $0x54000342eb1b013f
DWORD $0x540000a071000a7f
DWORD $0xcb1701298b1502c9
DWORD $0x54000782f100413f
DWORD $0x12000f28aa1f03e9
DWORD $0x8b16012b8b0902ea
DWORD $0x91000549cb090108
DWORD $0x91000508910006aa
DWORD $0x3840152b8b0b014a
DWORD $0x3800154bf1000508
DWORD $0x8b1a02d654ffffa1
DWORD $0xf100831f17ffff43
DWORD $0xaa1f03ea54000182
DWORD $0x910006e11400001a
DWORD $0xaa1003f3d1000742
DWORD $0x94004279aa1103f8
DWORD $0xaa1303f0aa1803f1
DWORD $0x17ffff368b1a02d6
DWORD $0x910046ad8b09010c
DWORD $0x927beb0a927d070b
DWORD $0x8b1601ad9100418c
DWORD $0xad7f8580927beb0e
DWORD $0x9100818cf10081ce
DWORD $0x910081adad3f85a0
DWORD $0xeb0a031f54ffff61
DWORD $0xb4fff4ab54ffe4a0
DWORD $0x927df30aaa0a03eb
DWORD $0x8b09016c910006ae
DWORD $0xcb0a016b8b16016d
DWORD $0x8b0d01cd8b0c010c
DWORD $0xb100216bfc408580
DWORD $0x54ffffa1fc0085a0
DWORD $0x54ffe2c0eb0a031f
DWORD $0x71003e7f17ffff96
DWORD $0x3dc00100540000a1
DWORD $0x3d8000008b1a02d6
DWORD $0x927ef76917ffff11
DWORD $0xb840450b927ef76a
DWORD $0xb800440bf100114a
DWORD $0xeb09037f54ffffa1
DWORD $0x17ffffc454fff721
DWORD $0xaa1f03f62a1f03e0
DWORD $0xaa1f03f617fffdba
WORD $0x17fffdb8
	ADD $144, RSP
	// 38864: rtp_route::by_walk::write_in_two_byte_form::<#687967002a58489c>
DWORD $0xf900021ed107c3f0
	SUB $496, RSP
WORD $0xf900cbfd
DWORD $0xa91b67faa91a6ffe
DWORD $0xa91d57f6a91c5ff8
DWORD $0x39406028a91e4ff4
DWORD $0x540013417100051f
DWORD $0x39400049a9405c75
DWORD $0x3940084b3940044a
DWORD $0xb9005be9f9400033
DWORD $0x3940643439400c49
DWORD $0xf940083df94002a8
DWORD $0x2909a7ea7100069f
DWORD $0x79400c4a39401049
DWORD $0x290c27ebad460500
DWORD $0xa941587839402049
DWORD $0xad470102ad0987e0
DWORD $0xb9400c49b9005fe9
DWORD $0xad440101ad0a83e2
DWORD $0x394040492908abe9
DWORD $0xad450101ad0783e1
DWORD $0xb9401449b9019be9
DWORD $0xad420101ad0883e1
DWORD $0xad0583e1b90057e9
DWORD $0xad0683e1ad430101
DWORD $0xad0383e1ad400101
DWORD $0x39400268ad410500
DWORD $0x54000e00ad0487e0
DWORD $0xf00e5c035000194
DWORD $0x2e203421fd403be1
DWORD $0x1e2600292e30a821
DWORD $0xfc4773e1370000c9
DWORD $0x2e30a8002e203420
DWORD $0x36000c891e260009
DWORD $0xaa0603fad37e0d08
DWORD $0x91004109f90037e4
DWORD $0xcb0903a18b090268
DWORD $0x39400109b4000ba1
DWORD $0xf100083f35000349
DWORD $0xf100043f54000140
DWORD $0xf1000c3f54000ae0
DWORD $0x3940050954000108
DWORD $0x39400909350000c9
DWORD $0x1400005035000089
DWORD $0x340009c939400509
DWORD $0xaa0003f9d1000421
DWORD $0xaa0503fb91000500
DWORD $0xf94037e497ffdc0a
DWORD $0xaa1903e0aa0003e8
DWORD $0x39400109b40008a1
DWORD $0xaa1a03e6aa1b03e5
DWORD $0x540008087103bd3f
DWORD $0x1100094a12000d2a
DWORD $0x54000783eb0a0021
DWORD $0x9101c3eb2a0903e9
DWORD $0xaa4911698b0a0108
DWORD $0x71003d3f39400129
DWORD $0x321e3fe954fffb03
DWORD $0x6f00e400d37ffbaa
DWORD $0xaa1f03e2eb0900bf
DWORD $0x9a8930a12a1f03e8
DWORD $0xeb09002991000d49
DWORD $0xad0000c09a8933e9
DWORD $0xad0200c0ad0100c0
DWORD $0x54001563ad0300c0
DWORD $0x54001523eb18013f
DWORD $0x39400268f94012a9
DWORD $0x3940a2a9b40000e9
DWORD $0x540000817100053f
DWORD $0x7100053f3940a6a9
DWORD $0xd37e0d1b540013c1
DWORD $0xa90303e19105c3e7
DWORD $0x2a1403e3aa0403e0
DWORD $0x9100437952800024
DWORD $0xa9175ff591004362
DWORD $0x8b190265cb1903a6
DWORD $0xf9000bfaa9185bf8
DWORD $0x2a0003e997fffd04
DWORD $0xf94037e8a94303f1
DWORD $0xf94012b836001189
DWORD $0xaa1a03eab40010d8
DWORD $0x91000916aa1f03fd
DWORD $0xa9026fe991004909
DWORD $0xa9007c1f14000013
DWORD $0xa95e4ff47900201f
DWORD $0xa95d57f6f940cbfd
DWORD $0xa95b67faa95c5ff8
WORD $0xa95a6ffe
	ADD $496, RSP
WORD $0xd65f03c0
	SUB $496, RSP
DWORD $0x3824690939400129
DWORD $0x29005c648b170081
DWORD $0xeb1803bf910007bd
DWORD $0x8b1d0d4354000dc0
DWORD $0x35ffff69b9400069
DWORD $0x8b1d1529f9400ea9
DWORD $0x8b17002bf9400537
DWORD $0xeb0b023f9100096b
DWORD $0xf94006ab54000d03
DWORD $0x8b01010ef940012c
DWORD $0x910008243940612d
DWORD $0x8b0c0169390005d7
DWORD $0xb40002b7390001cd
DWORD $0x54fffca0f10006ff
DWORD $0x540000e8f1000aff
DWORD $0x8b04010c3940012b
DWORD $0x394005293900018b
DWORD $0x17ffffdf39000589
DWORD $0x54000121f1000eff
DWORD $0x8b04010c3940012b
DWORD $0x3940052b3900018b
DWORD $0x394009293900058b
DWORD $0x17ffffd539000989
DWORD $0xcb0901ad8b04010d
DWORD $0x54000262eb1701bf
DWORD $0x540000c3f10022ff
DWORD $0xcb0b01298b0102c9
DWORD $0xf100813fcb0c0129
DWORD $0xaa1f03e954000342
DWORD $0x8b01012d8b0c012c
DWORD $0x8b0c016bcb0902e9
DWORD $0x3840156d8b0d02cc
DWORD $0x3800158df1000529
DWORD $0x17ffffbf54ffffa1
DWORD $0xaa0903e18b040100
DWORD $0xaa0303f9aa1703e2
DWORD $0x94004147aa0403fb
DWORD $0xa942c7fbaa1b03e4
DWORD $0xf9401fe0f94037e8
DWORD $0xaa1a03eaaa1903e3
DWORD $0x17ffffb191004379
DWORD $0x54000062f10082ff
DWORD $0x14000011aa1f03e9
DWORD $0x8b0c016ef94013ef
DWORD $0x927beae9927d06ed
DWORD $0x927beaf0910041ce
DWORD $0xad7f85c08b0101ef
DWORD $0x910081cef1008210
DWORD $0x910081efad3f85e0
DWORD $0xeb0902ff54ffff61
DWORD $0xb4fffaad54fff3c0
DWORD $0x927df2e9aa0903ed
DWORD $0x8b0d002f8b0c01ae
DWORD $0x8b0e016ecb0901ad
DWORD $0xfc4085c08b0f02cf
DWORD $0xfc0085e0b10021ad
DWORD $0xeb0902ff54ffffa1
DWORD $0x17ffffc754fff200
DWORD $0x927ef52291000c29
DWORD $0x54000102eb02023f
DWORD $0xaa1f03e22a1f03e8
DWORD $0x390040082a0803e9
DWORD $0x39004408a9000809
DWORD $0xeb01004917ffff79
DWORD $0xf100093f54000180
DWORD $0xf100053f540000a0
DWORD $0x3821691f540000a1
DWORD $0x7821691f14000006
DWORD $0x8b01010914000004
DWORD $0x7900013f3900093f
DWORD $0xcb1900557100877f
DWORD $0xaa0803e054000143
DWORD $0xaa0203f3aa1303e1
DWORD $0x97fff46eaa1903e2
DWORD $0xf9401fe0f94037e8
DWORD $0x14000009aa1303e2
DWORD $0x7100477f3dc00260
DWORD $0x540000633d800100
DWORD $0x3d8005003dc00660
DWORD $0x3cbb69003cfb6a60
DWORD $0x294b3ff0294c37ee
DWORD $0x7100069fb9419bec
DWORD $0x531a66a954000361
DWORD $0x7100061f8b19010a
DWORD $0x781fe149330a46a9
DWORD $0x39400509540004a1
DWORD $0x33191d49b9404fea
DWORD $0x710005df39000509
DWORD $0x710005bf54000420
DWORD $0xb9404be9540004c1
DWORD $0x790005095ac00529
DWORD $0x54000460710005ff
DWORD $0x540000817100059f
DWORD $0x5ac00929b94057e9
DWORD $0x52800028b9000909
DWORD $0x8b19010917ffffbc
DWORD $0xd10011299105c3ea
DWORD $0x5280020acb0a012b
DWORD $0x7902e3eaf100057f
DWORD $0x7942e3ea54000048
DWORD $0x531a66a97900012a
DWORD $0x7100061f8b19010a
DWORD $0x781fe149330a46a9
DWORD $0x710005df54fffba0
DWORD $0x3940050954fffc21
DWORD $0x12190129b94053ea
DWORD $0x390005090b0a0129
DWORD $0x54fffb80710005bf
DWORD $0x54fffbe1710005ff
DWORD $0x5ac00929b94047e9
DWORD $0x7100059fb9000509
DWORD $0x17ffffde54fffb80
	ADD $496, RSP
	// 40468: rtp_route::making::make_by_calls_of::<#687967002a58489c>
WORD $0xd10683f0
WORD $0xf900021e
	SUB $416, RSP
DWORD $0xa9194ffef900c3fd
DWORD $0xf9400c4af9400048
DWORD $0x910583e0aa0003f3
DWORD $0xf9400109a9057fea
DWORD $0xad400d22ad410121
DWORD $0xad030fe2ad0403e1
DWORD $0xad4305206f00e402
DWORD $0xad0607e0ad421123
DWORD $0xad450121ad0513e3
DWORD $0xad440d22ad0b0be2
DWORD $0x3cc08040ad0803e1
DWORD $0xad070fe29100c3e2
DWORD $0xad4701213d8013e0
DWORD $0x910183e9ad460d22
DWORD $0x79403029a90323e9
DWORD $0x3dc00020ad0a03e1
DWORD $0x7940510aad090fe2
DWORD $0x910043e1f9400828
DWORD $0x7900b3ea3d8007e0
DWORD $0x790053e9a9027fe8
DWORD $0x394583e89400000b
DWORD $0x7942e3eaf940b7e9
DWORD $0xa957f7e8a9002668
DWORD $0xf9000e687900226a
WORD $0xa9594ffe
	ADD $416, RSP
WORD $0xd65f03c0
	// 40684: rtp_route::making::make_by_calls::<#2b2c45b9ae55a838>
WORD $0xd10743f0
WORD $0xf900021e
	SUB $464, RSP
DWORD $0xa9186ffef900bbfd
DWORD $0xa91a5ff8a91967fa
DWORD $0xa91c4ff4a91b57f6
DWORD $0xaa0203f46f00e400
DWORD $0xf9400822aa0103e8
DWORD $0x3940611af9400021
DWORD $0xaa0003f33940651b
DWORD $0xeb02009fa90cffff
DWORD $0xad0203e0ad0103e0
DWORD $0xad0403e0ad0303e0
DWORD $0x540000a2ad0503e0
DWORD $0x528001092a1f03e8
DWORD $0x140000475280006a
DWORD $0xaa0403f6d100c448
DWORD $0xb100891faa0303f5
DWORD $0xf900bfe5aa0203f7
DWORD $0xaa1503e0540000a8
DWORD $0xaa1703e297fff3c5
DWORD $0x3dc000201400000a
DWORD $0x3d8002a0f100845f
DWORD $0x3dc0042054000063
DWORD $0xd10040483d8006a0
DWORD $0x3ca86aa03ce86820
DWORD $0x3940a299f9400298
DWORD $0x3940a69d9103c3e0
DWORD $0xaa1803e1a9107fe2
DWORD $0x390423faa90f0bf5
DWORD $0x97ffebf7390427fb
DWORD $0xf940069836000380
DWORD $0xf90083ffa90f7fff
DWORD $0xb400093af940131a
DWORD $0xaa1703e3aa1f03fb
DWORD $0xf9400709f9400f08
DWORD $0x3940a68b9103c3e0
DWORD $0xaa1503e13940a287
DWORD $0xaa1603e28b1b0108
DWORD $0x39406104a940190a
DWORD $0x8b0a0125390043eb
DWORD $0x3943c3e897fff66a
DWORD $0x350001a8f9407fe3
DWORD $0x9100837bf100075a
DWORD $0x1400003454fffdc1
DWORD $0x540003217100073f
DWORD $0x2a1f03e93500031d
DWORD $0xaa1f03e22a1f03e8
DWORD $0x140000055280004a
DWORD $0xd348fc68f94083e2
DWORD $0x5280006a2a0303e9
DWORD $0x390042695280002b
DWORD $0x39004668a9002a6b
DWORD $0xa95c4ff4f9000e62
DWORD $0xa95b57f6f940bbfd
DWORD $0xa95967faa95a5ff8
WORD $0xa9586ffe
	ADD $464, RSP
WORD $0xd65f03c0
	SUB $464, RSP
DWORD $0xaa1503e1910363e0
DWORD $0xaa1703e3aa1603e2
DWORD $0x394363e897fff623
DWORD $0x340000a8f94073e9
DWORD $0xd348fd28f94077e2
DWORD $0x17ffffe75280006a
DWORD $0x9103c3e052802028
DWORD $0xa90f27f5aa1803e1
DWORD $0xa91023e9aa0903f7
DWORD $0xf940069897ffebae
DWORD $0xf90083ffa90f7fff
DWORD $0xb5fff73af940131a
DWORD $0x910323e0aa1703e3
DWORD $0xaa0303e2aa1503e1
DWORD $0x394323e897fff985
DWORD $0xf9406bf635000a08
DWORD $0x540009a3f10032df
DWORD $0x3101051f39c002a8
DWORD $0x92401d095400094c
DWORD $0x91003108d37e0d28
DWORD $0x540008a3eb0802ca
DWORD $0x2a1f03f837200089
DWORD $0x140000132a1f03f7
DWORD $0x540007e3f100114b
DWORD $0x394009498b0802aa
DWORD $0xd376d52939400d4c
DWORD $0xeb09017faa0c0929
DWORD $0x7940014a54000703
DWORD $0x910011088b090108
DWORD $0x7100417f12146d4b
DWORD $0x1a9f17f7529bd7cb
DWORD $0x1a9f16f86b0b015f
DWORD $0x6f00e400f9005be8
DWORD $0xa90a5bf5f9400688
DWORD $0x3902e3f8f9401114
DWORD $0xb900e3ff3902e7f7
DWORD $0xad0783e0f9006fff
DWORD $0xad0983e0ad0883e0
DWORD $0xb40001f4ad0a83e0
DWORD $0x9103c3faf9400d08
DWORD $0x384206a291006115
DWORD $0x910283e1910363e0
DWORD $0x394363e897fff9ab
DWORD $0x540002e17100051f
DWORD $0xf1000694f84dc3e8
DWORD $0x54fffec1f8008748
DWORD $0xf940bfe8ad4987e0
DWORD $0xad4797e4ad4a8fe2
DWORD $0xad0307e0ad489fe6
DWORD $0xad0117e4ad040fe2
DWORD $0xad001504ad021fe6
DWORD $0xad020500ad011d06
DWORD $0xa9005a7fad030d02
DWORD $0x3900467739004278
DWORD $0x17ffff8af9000e7f
WORD $0xd4200020
	ADD $464, RSP
	// 41584: rtp_c::receiver::receive_any
DWORD $0xf940000a39406008
DWORD $0x4b0a002934000348
DWORD $0x8b29214c13003d2b
DWORD $0x9271014b3140217f
DWORD $0x929fffebfa400960
DWORD $0x7211013f9a8b03eb
DWORD $0x9a8b01898b0c016b
DWORD $0xeb09014da940ac0c
DWORD $0x54000262b240018c
DWORD $0xf100055fcb0a012a
DWORD $0xaa0c054d54000281
DWORD $0x7100051f93ccfd6b
DWORD $0xf900080ba9003409
DWORD $0x14000030540005e1
	MOVD $rtp_wire_constants<>+112(SB), R8
DWORD $0x3dc00100b3403c2a
DWORD $0xaa0a03e9f900000a
DWORD $0x140000263c808000
DWORD $0x54000289f101fdbf
DWORD $0xd65f03c052800140
DWORD $0x54000368f101fd5f
DWORD $0x2a2a03eed341fd8d
DWORD $0x9aca218c9aca216b
DWORD $0x9ace25adf27a015f
DWORD $0x9a8c13edaa0d016a
DWORD $0xb24001ad9a8a118b
DWORD $0xa90034097100051f
DWORD $0x54000241f900080b
DWORD $0x5280002e14000013
DWORD $0x9acd21cef27a01bf
DWORD $0x9a9f11ce9a8e13ed
DWORD $0x8a0d01908a0e016f
DWORD $0xb40001afaa0f020f
DWORD $0xd65f03c052800140
DWORD $0x7100051f5280002d
DWORD $0xf900081fa9003409
DWORD $0x5280002854000060
DWORD $0x2a1f03e039006008
DWORD $0xd65f03c0f9000049
DWORD $0xaa0e016baa0d018d
DWORD $0xa900340a7100051f
DWORD $0x54fffec1f900080b
WORD $0x17fffff7
	// 41924: rtp_base::ring::ring_start
WORD $0xb4000461
WORD $0xf81c03fe
	SUB $64, RSP
DWORD $0xa90257f6f9000bfe
DWORD $0xaa0203f4a9034ff4
DWORD $0xaa0003f3aa0103f5
DWORD $0x54000160f1000436
DWORD $0xaa1303e0d37df2a8
DWORD $0xd10021022a1f03e1
DWORD $0xf10042bf94003f84
DWORD $0x54000081f8367a7f
DWORD $0x14000005d3462688
DWORD $0xd346fe88f900027f
DWORD $0x9b15a1289ad50909
DWORD $0xf8687a6a52800029
DWORD $0xa94257f69ad42129
DWORD $0xf8287a69aa090149
DWORD $0xf9400bfea9434ff4
	ADD $64, RSP
WORD $0xd65f03c0
WORD $0xd4200020
	// 42068: rtp_base::ring::clear
WORD $0xcb020068
DWORD $0x54000609eb48183f
DWORD $0x540002e9eb02007f
DWORD $0x540002c1f100403f
DWORD $0x5280080992401448
DWORD $0xcb080129cb02006a
DWORD $0xeb09015fcb0803e8
DWORD $0x9280000a9a893149
DWORD $0x9ac82548cb090108
DWORD $0x9ac22508d343fc4a
DWORD $0xf86a680b927d0d4a
DWORD $0x8b0201229ac22108
DWORD $0x8a280168eb03005f
DWORD $0x54fffda3f82a6808
DWORD $0xd346fc48d65f03c0
DWORD $0x5280080b9240144a
DWORD $0xcb02006ccb0a016b
DWORD $0x9ac10909cb0a03ea
DWORD $0x9a8b318beb0b019f
DWORD $0xcb0b01499b01a128
DWORD $0x9ac925499280000a
DWORD $0x9ac221299ac22529
DWORD $0x8b020162f868780a
DWORD $0x8a290149eb03005f
DWORD $0x54fffd83f8287809
DWORD $0xb4fffd2117ffffea
WORD $0xf81d03fe
	SUB $48, RSP
DWORD $0xa9024ff4f9000bfe
DWORD $0x540000e0f1000434
DWORD $0x2a1f03e1d37df028
DWORD $0xd1002102aa0003f3
DWORD $0xaa1303e094003f32
DWORD $0xa9424ff4f834781f
WORD $0xf9400bfe
	ADD $48, RSP
WORD $0xd65f03c0
	// 42340: rtp_c::wide_receiver::receive_other
WORD $0xf81c03fe
	SUB $64, RSP
WORD $0xa9015ffe
DWORD $0xa9034ff4a90257f6
DWORD $0xaa0403f339402008
DWORD $0xaa0003f5aa0303f4
DWORD $0xf94002a834000168
DWORD $0x54000301eb140109
DWORD $0xa9434ff452800140
DWORD $0xa9415ffea94257f6
	ADD $64, RSP
WORD $0xd65f03c0
	SUB $64, RSP
WORD $0xaa0103e0
DWORD $0xaa1403e2aa0203e1
DWORD $0xaa1403e897ffff81
DWORD $0xf90002a82a1f03e0
DWORD $0x390022a852800028
DWORD $0xa9434ff4f9000274
DWORD $0xa9415ffea94257f6
	ADD $64, RSP
WORD $0xd65f03c0
	SUB $64, RSP
WORD $0x54000102
DWORD $0x540001e0f100405f
DWORD $0xd346fd09b4000982
DWORD $0x9b02a5499ac2092a
DWORD $0xeb49185f1400000b
DWORD $0xf100405f54fffc09
DWORD $0xd346268954000681
DWORD $0x9ad42529f8697829
DWORD $0x17fffff13707fb49
DWORD $0x5280002ad3462509
DWORD $0x9ac8214bf869782c
DWORD $0xaa0b018beb14010a
DWORD $0x54000222f829782b
DWORD $0xf100093fcb080289
DWORD $0xaa0203f654000143
DWORD $0xaa0103e091000502
DWORD $0xaa1603e1aa0103f7
DWORD $0x97ffff76aa1403e3
DWORD $0xaa1703e1aa1603e2
DWORD $0x54000201f100405f
DWORD $0x14000011d3462688
DWORD $0x54fff969eb4a185f
DWORD $0xd346fe8a52800029
DWORD $0x9ad42129f100405f
DWORD $0xd37d0d4a540002e1
DWORD $0xea09017ff86a682b
DWORD $0xf86a682b54fff841
DWORD $0xd346fe8814000017
DWORD $0x9b02a1289ac20909
DWORD $0xf868782a52800029
DWORD $0xaa0901499ad42129
DWORD $0x17ffffb6f8287829
DWORD $0x9ac2092ad346fe89
DWORD $0xf86978299b02a549
DWORD $0x3707f4a99ad42529
DWORD $0x9ac2094b17ffffbc
DWORD $0xd37df14a9b02a96a
DWORD $0xea09017ff86a682b
DWORD $0xaa09016954fff541
DWORD $0x17ffffa7f82a6829
WORD $0xd4200020
	ADD $64, RSP
	// 42808: rtp_c::whole_packet::status_of_no_packet
DWORD $0x54000143f100083f
DWORD $0x3101051f39c00008
DWORD $0x39400408540000ec
DWORD $0x7103011f121b0908
DWORD $0x5280022054000061
DWORD $0x92401c48d65f03c0
	MOVD $rtp_wire_constants<>+2448(SB), R9
DWORD $0xb868792091000129
WORD $0xd65f03c0
	// 42876: core::cmp::text::RefStrPartialEq::eq
WORD $0xeb03003f
DWORD $0xf1001c3f54000201
DWORD $0xf100102854000208
DWORD $0xb9400009540004a3
DWORD $0xb940004bb868680a
DWORD $0xaa0a8129b8686848
DWORD $0xdac00d28aa08816a
DWORD $0xeb09011fdac00d49
DWORD $0xd65f03c01a9f17e0
DWORD $0xd65f03c02a1f03e0
DWORD $0x54000508f100803f
DWORD $0x5280010bd1002028
DWORD $0xf100211ff9400009
DWORD $0x5280020cf940004a
DWORD $0xf100411f9a8b310b
DWORD $0xf86b680d9a8c310c
DWORD $0xeb0a013ff86b684b
DWORD $0xf86c684af86c6809
DWORD $0xf868680bfa4b01a0
DWORD $0xfa4a0120f8686848
DWORD $0x1a9f17e0fa480160
DWORD $0xb4000b01d65f03c0
DWORD $0xd341fc2939400008
DWORD $0xd100042c3940004a
DWORD $0xd370bd083869680b
DWORD $0xd370bd4a38696849
DWORD $0x386c680baa0b2108
DWORD $0x386c684aaa092149
DWORD $0xaa0a0129aa0b0108
DWORD $0x1a9f17e0eb09011f
DWORD $0xf101043fd65f03c0
DWORD $0xaa0203e9aa0003e8
DWORD $0x54000302aa0103ea
DWORD $0xd1004028ad400c40
DWORD $0xf100811fad400801
DWORD $0x9a89310952800409
DWORD $0x6e238c416e208c20
DWORD $0x3ce968433ce96802
DWORD $0x4ee11c006e205800
DWORD $0x3ce868026e238c41
DWORD $0x4ee11c003ce86843
DWORD $0x4ee11c006e238c41
DWORD $0x1e2600086e30a800
DWORD $0x5200010012000108
DWORD $0xad400123d65f03c0
DWORD $0x6e208c20ad400502
DWORD $0xad4115226e238c41
DWORD $0x6e205800ad411103
DWORD $0x4ee11c006e228c62
DWORD $0x4ee21c006e258c81
DWORD $0x4e20a8004ee11c00
DWORD $0x1e26000b6e30a800
DWORD $0xd101014a370003cb
DWORD $0x9101010891010129
DWORD $0x54fffd82f101055f
DWORD $0x8b080009d1010028
DWORD $0xad4001038b080048
DWORD $0x6e208c20ad400522
DWORD $0xad4115026e238c41
DWORD $0x6e205800ad411123
DWORD $0x4ee11c006e228c62
DWORD $0x4ee21c006e258c81
DWORD $0x4e20a8004ee11c00
DWORD $0x1e2600086e30a800
DWORD $0x5200010012000108
DWORD $0xeb1f03ffd65f03c0
DWORD $0xd65f03c01a9f17e0
DWORD $0x5200010052800028
WORD $0xd65f03c0
	// 43420: rtp_c::given_layers::with_given_layers::<#6444109e7f8c5753>
WORD $0xf81d03fe
	SUB $48, RSP
WORD $0xf9000bf5
DWORD $0x394a8048a9024ff4
DWORD $0x540023a87100111f
DWORD $0x3942804934001508
DWORD $0x540023227100153f
DWORD $0x3940984a340000c9
DWORD $0x540022a87100115f
DWORD $0x54001c817100053f
DWORD $0x540016617100051f
DWORD $0xb9001fff394a8449
DWORD $0x54001368f1000d3f
DWORD $0xaa1f03eb2a1f03ed
DWORD $0xaa0803ecaa1f03ea
DWORD $0x5280150ed100058c
DWORD $0x394281f09b0e098f
DWORD $0x7100121f34000ff0
DWORD $0x2a1f03ee52800091
DWORD $0x140000081a913210
DWORD $0x5280002d3700118d
DWORD $0x9100054a8b0b00ab
DWORD $0x2a1103ed2a0e05ae
DWORD $0xd1000610b4000e90
DWORD $0x9b113e0652800511
DWORD $0x7100007f394094c3
DWORD $0x340001231a9f07f1
DWORD $0x794044c5794040c4
DWORD $0x7a4018a47100009f
DWORD $0x71001ddf1a9f07e4
DWORD $0x14000077540000a9
DWORD $0x71001ddf2a1f03e4
DWORD $0x394098c754000e88
DWORD $0xf94000c5340001c7
DWORD $0x540001e3f14010bf
DWORD $0xf14800bfb7f80dc5
DWORD $0xd34efcb3540005e3
DWORD $0xd34efe7452800065
DWORD $0x910004a5d347fe73
DWORD $0x14000008b5ffffb4
DWORD $0x531f79ce35000c83
DWORD $0x1400004fb5fffbb0
DWORD $0x52800025f10200bf
DWORD $0x710004ff9a8534a5
DWORD $0xf94004d3540008a0
DWORD $0xb4000154d34efe74
DWORD $0xf148027fb7f80b13
DWORD $0x52800073540005e3
DWORD $0xd347fe94d34efe95
DWORD $0xb5ffffb591000673
DWORD $0xf102027f14000004
DWORD $0x9a93367352800033
DWORD $0x8b050265710008ff
DWORD $0xf94008d354000660
DWORD $0xb40001d4d34efe74
DWORD $0xf148027fb7f808d3
DWORD $0x52800073540004c3
DWORD $0xd347fe94d34efe95
DWORD $0xb5ffffb591000673
DWORD $0x5280006514000008
DWORD $0x54fffc01710004ff
DWORD $0xf102027f14000023
DWORD $0x9a93367352800033
DWORD $0x8b05026571000cff
DWORD $0xf9400cc6540003a0
DWORD $0xb40001e7d34efcc7
DWORD $0xf14800dfb7f80606
DWORD $0x52800066540002a3
DWORD $0xd347fce7d34efcf3
DWORD $0xb5ffffb3910004c6
DWORD $0x5280007314000010
DWORD $0x8b050265710008ff
DWORD $0x1400000c54fffb61
DWORD $0x52800026f10200df
DWORD $0x140000079a8634c6
DWORD $0x71000cff52800073
DWORD $0x54fffd018b050265
DWORD $0x5280006614000003
DWORD $0x34fff1638b0500c5
DWORD $0x910014a5340002c4
DWORD $0x2a1f03ee17ffff89
DWORD $0x382c69ee910073ef
DWORD $0x394073ecb5ffef4c
DWORD $0xeb0d011f5280002d
DWORD $0x910073ee540010c0
DWORD $0x910005ad386d69ce
DWORD $0x54ffff406b0c01df
DWORD $0xd341fd8d9100050c
DWORD $0x14000082aa1f03ec
DWORD $0x34000128394a8448
DWORD $0xa9017c1fa9007c1f
DWORD $0xa9424ff4a9027c1f
WORD $0xf9400bf5
	ADD $48, RSP
WORD $0xd65f03c0
	SUB $48, RSP
DWORD $0xaa1f03e8aa1f03e9
DWORD $0x5280002bd2e0002a
DWORD $0xa9010809a900040b
DWORD $0xa9424ff4a9022808
WORD $0xf9400bf5
	ADD $48, RSP
WORD $0xd65f03c0
	SUB $48, RSP
DWORD $0x7100113f39452049
DWORD $0x340000c954000b88
DWORD $0x7100115f3943384a
DWORD $0x7100053f54000b08
DWORD $0x7100091f540006e1
DWORD $0x3947c04954ffe880
DWORD $0x54000a287100113f
DWORD $0x3945d84a340000c9
DWORD $0x540009a87100115f
DWORD $0x540007817100053f
DWORD $0x54ffe72071000d1f
DWORD $0x7100113f394a6049
DWORD $0x34ffe6a9540008c8
DWORD $0x7100115f3948784a
DWORD $0x7100053f54000848
DWORD $0x3949184a54ffe600
DWORD $0x540007a87100115f
DWORD $0x54ffe5607100093f
DWORD $0x7100115f3949b84a
DWORD $0x71000d3f54000708
DWORD $0x394a584a54ffe4c0
DWORD $0x540006687100115f
DWORD $0x54ffe4207100113f
DWORD $0x3941384a14000030
DWORD $0x540005a87100115f
DWORD $0x54ffe3207100093f
DWORD $0x7100115f3941d84a
DWORD $0x71000d3f54000508
DWORD $0x3942784a54ffe280
DWORD $0x540004687100115f
DWORD $0x54ffe1e07100113f
DWORD $0x3943d84a14000020
DWORD $0x540003a87100115f
DWORD $0x54fff8c07100093f
DWORD $0x7100115f3944784a
DWORD $0x71000d3f54000308
DWORD $0x3945184a54fff820
DWORD $0x540002687100115f
DWORD $0x54fff7807100113f
DWORD $0x3946784a14000010
DWORD $0x540001a87100115f
DWORD $0x54fff8207100093f
DWORD $0x7100115f3947184a
DWORD $0x71000d3f54000108
DWORD $0x3947b84a54fff780
DWORD $0x540000687100115f
DWORD $0x54fff6e07100113f
DWORD $0xad0080006f00e400
DWORD $0xa9424ff43d800000
WORD $0xf9400bf5
	ADD $48, RSP
WORD $0xd65f03c0
	SUB $48, RSP
DWORD $0x7100019f9100050d
DWORD $0xd341fdadd3607d8c
DWORD $0x11000d4e9a9f01ad
DWORD $0xb0d016b0b4e096b
DWORD $0xd3483d6d1100056b
DWORD $0xb9401fedb5ffef8d
DWORD $0xaa0d018ab3581d4c
DWORD $0x17ffff82b3503d6a
	ADD $48, RSP
	// 44684: rtp_ext::block_form::has_empty_data::<#16f98aa29e959305>
WORD $0xb40006a1
WORD $0xf81d03fe
	SUB $48, RSP
DWORD $0xa9024ff4f9000bfe
DWORD $0xaa0003f4aa0203f3
DWORD $0xeb01011faa1f03e8
DWORD $0x540001e21a9f27e0
DWORD $0x38686a8991000508
DWORD $0x540003c07100293f
DWORD $0x540002c071002d3f
DWORD $0x54fffec17100313f
DWORD $0x3942012af9400269
DWORD $0x3941412934fffe6a
DWORD $0x1400001935fffe29
DWORD $0x540002e3f1003c3f
DWORD $0x540002a8f103f91f
DWORD $0xaa0803e1aa1403e0
DWORD $0x9100400a97ffd6fa
DWORD $0xaa0003e852801fe9
DWORD $0x9a893141f103fd5f
DWORD $0xf940026917ffffe3
DWORD $0x34fffc0a3942092a
DWORD $0x35fffbc93941a929
DWORD $0xf940026914000006
DWORD $0x34fffb4a3942052a
DWORD $0x35fffb0939418529
DWORD $0xf9400bfea9424ff4
	ADD $48, RSP
WORD $0xd65f03c0
DWORD $0xd65f03c02a1f03e0
	// 44904: rtp_ext::block_elements::values_len::<#16f98aa29e959305>
WORD $0xf81c03fe
	SUB $64, RSP
DWORD $0xa90257f6f9000bfe
DWORD $0x72001c7fa9034ff4
DWORD $0xaa0203f352800028
DWORD $0xaa1f03e9aa0003f4
DWORD $0x9a880516aa1f03f5
DWORD $0xf940026814000007
DWORD $0x340000883941e908
DWORD $0x8b1602aa52800028
DWORD $0xaa0903e88b080155
DWORD $0x54000122eb01011f
DWORD $0x394005298b080289
DWORD $0x910005095100052a
DWORD $0xaa0903e87100395f
DWORD $0x1400000e54ffff08
DWORD $0x54001843f1003c3f
DWORD $0x54001808f103f91f
DWORD $0xaa0803e1aa1403e0
DWORD $0x9100400a97ffd6be
DWORD $0xaa0003e852801fe9
DWORD $0x9a893141f103fd5f
WORD $0x17ffffea
	MOVD $rtp_wire_constants<>+624(SB), R8
WORD $0x91000108
DWORD $0x386a690c10fffbeb
DWORD $0xd61f01608b0c096b
DWORD $0x3941cd08f9400268
DWORD $0x17ffffde35000e68
DWORD $0x3942010af9400268
DWORD $0x3941410a34fffb6a
DWORD $0x3941450a3400118a
DWORD $0x3941490a34fffa8a
DWORD $0x39414d0a34000b6a
DWORD $0x3941510a34000cea
DWORD $0x3941550a3400092a
DWORD $0x3941590a3400112a
DWORD $0x39415d0a3400112a
DWORD $0x3941610a3400112a
DWORD $0x3941650a3400112a
DWORD $0x3941690a3400112a
DWORD $0x39416d0a3400112a
DWORD $0x3941710a3400112a
DWORD $0x3941750a3400112a
DWORD $0x3941790a34000e0a
DWORD $0x39417d0a340010ea
DWORD $0x39418108340010ea
DWORD $0x528002087100011f
DWORD $0x17ffffb49a880508
DWORD $0x3941e50af9400268
DWORD $0x7940850a34fff66a
DWORD $0x7102cd5f52800028
DWORD $0x34fff58a54000c8c
DWORD $0x54fff5407101695f
DWORD $0xf940026817ffffab
DWORD $0x350004083941dd08
DWORD $0xf940026817ffffa7
DWORD $0x34fff48a3942050a
DWORD $0x34000aaa3941850a
DWORD $0x34fff3aa3941890a
DWORD $0x3400048a39418d0a
DWORD $0x3400060a3941910a
DWORD $0x3400024a3941950a
DWORD $0x34000a4a3941990a
DWORD $0x34000a4a39419d0a
DWORD $0x34000a4a3941a10a
DWORD $0x1400003c3941a508
DWORD $0x3941ed0af9400268
DWORD $0x3941f10834fff1ea
DWORD $0x17ffff8c35fff148
DWORD $0x3941d908f9400268
DWORD $0x5280008834fff128
DWORD $0xf940026817ffff85
DWORD $0x34fff08a3941d10a
DWORD $0x5280010a3941d508
DWORD $0x528002087100011f
DWORD $0x17ffff7c9a880148
DWORD $0x3941e108f9400268
DWORD $0x5280004834ffef68
DWORD $0xf940026817ffff77
DWORD $0x3400008a3941f50a
DWORD $0x7100015fb940210a
DWORD $0x3941f90b1a9f07ea
DWORD $0xb940310834ffee2b
DWORD $0x1a8a03e87100011f
DWORD $0x528000683607eda8
DWORD $0xf940026817ffff69
DWORD $0x34ffed0a3942090a
DWORD $0x3400032a3941a90a
DWORD $0x34ffec2a3941ad0a
DWORD $0x34fffd0a3941b10a
DWORD $0x34fffe8a3941b50a
DWORD $0x34fffaca3941b90a
DWORD $0x340002ca3941bd0a
DWORD $0x340002ca3941c10a
DWORD $0x340002ca3941c50a
DWORD $0x7100011f3941c908
DWORD $0x9a88050852800108
DWORD $0xf940026817ffff51
DWORD $0x34ffea083941fd08
DWORD $0x17ffff4c528001a8
DWORD $0x17ffff4aaa1f03e8
DWORD $0x54ffe9007102d15f
DWORD $0x54ffe8c07104395f
DWORD $0x528000a817ffff47
DWORD $0x528000c817ffff43
DWORD $0x528000e817ffff41
DWORD $0x5280010817ffff3f
DWORD $0x5280012817ffff3d
DWORD $0x5280014817ffff3b
DWORD $0x5280016817ffff39
DWORD $0x5280018817ffff37
DWORD $0x528001c817ffff35
DWORD $0x528001e817ffff33
DWORD $0xaa1503e017ffff31
DWORD $0xa94257f6a9434ff4
WORD $0xf9400bfe
	ADD $64, RSP
WORD $0xd65f03c0
	// 45828: rtp_ext::block_form::has_empty_data::<#defbc6cea7b2a850>
WORD $0xb4000701
WORD $0xf81d03fe
	SUB $48, RSP
DWORD $0xa9024ff4f9000bfe
DWORD $0xaa0003f4aa0203f3
DWORD $0xeb01011faa1f03e8
DWORD $0x540002021a9f27e0
DWORD $0x38686a8991000508
DWORD $0x540004007100293f
DWORD $0x540002e071002d3f
DWORD $0x54fffec17100313f
DWORD $0xf9400129f9400269
DWORD $0x34fffe4a3942012a
DWORD $0x35fffe0939414129
DWORD $0xf1003c3f1400001b
DWORD $0xf103f91f54000323
DWORD $0xaa1403e0540002e8
DWORD $0x97ffd5dbaa0803e1
DWORD $0x52801fe99100400a
DWORD $0xf103fd5faa0003e8
DWORD $0x17ffffe29a893141
DWORD $0xf9400129f9400269
DWORD $0x34fffbca3942092a
DWORD $0x35fffb893941a929
DWORD $0xf940026914000007
DWORD $0x3942052af9400129
DWORD $0x3941852934fffaea
DWORD $0xa9424ff435fffaa9
WORD $0xf9400bfe
	ADD $48, RSP
DWORD $0x2a1f03e0d65f03c0
WORD $0xd65f03c0
	// 46060: rtp_ext::block_elements::values_len::<#defbc6cea7b2a850>
WORD $0xf81c03fe
	SUB $64, RSP
WORD $0xf9000bfe
DWORD $0xa9034ff4a90257f6
DWORD $0x5280002872001c7f
DWORD $0xaa0003f4aa0203f3
DWORD $0xaa1f03f5aa1f03e9
DWORD $0x140000089a880516
DWORD $0xf9400108f9400268
DWORD $0x340000883941e908
DWORD $0x8b1602aa52800028
DWORD $0xaa0903e88b080155
DWORD $0x54000122eb01011f
DWORD $0x394005298b080289
DWORD $0x910005095100052a
DWORD $0xaa0903e87100395f
DWORD $0x1400000e54ffff08
DWORD $0x54001a03f1003c3f
DWORD $0x540019c8f103f91f
DWORD $0xaa0803e1aa1403e0
DWORD $0x9100400a97ffd59c
DWORD $0xaa0003e852801fe9
DWORD $0x9a893141f103fd5f
WORD $0x17ffffea
	MOVD $rtp_wire_constants<>+639(SB), R8
WORD $0x91000108
DWORD $0x386a690c10fffbcb
DWORD $0xd61f01608b0c096b
DWORD $0xf9400108f9400268
DWORD $0x35000fc83941cd08
DWORD $0xf940026817ffffdd
DWORD $0x3942010af9400108
DWORD $0x3941410a34fffb2a
DWORD $0x3941450a3400130a
DWORD $0x3941490a34fffa4a
DWORD $0x39414d0a34000c4a
DWORD $0x3941510a34000e2a
DWORD $0x3941550a340009ca
DWORD $0x3941590a340012aa
DWORD $0x39415d0a340012aa
DWORD $0x3941610a340012aa
DWORD $0x3941650a340012aa
DWORD $0x3941690a340012aa
DWORD $0x39416d0a340012aa
DWORD $0x3941710a340012aa
DWORD $0x3941750a340012aa
DWORD $0x3941790a34000f8a
DWORD $0x39417d0a3400126a
DWORD $0x394181083400126a
DWORD $0x528002087100011f
DWORD $0x17ffffb29a880508
DWORD $0xf9400108f9400268
DWORD $0x34fff60a3941e50a
DWORD $0x528000287940850a
DWORD $0x54000dec7102cd5f
DWORD $0x7101695f34fff52a
DWORD $0x17ffffa854fff4e0
DWORD $0xf9400108f9400268
DWORD $0x350004683941dd08
DWORD $0xf940026817ffffa3
DWORD $0x3942050af9400108
DWORD $0x3941850a34fff3ea
DWORD $0x3941890a34000bca
DWORD $0x39418d0a34fff30a
DWORD $0x3941910a3400050a
DWORD $0x3941950a340006ea
DWORD $0x3941990a3400028a
DWORD $0x39419d0a34000b6a
DWORD $0x3941a10a34000b6a
DWORD $0x3941a50834000b6a
DWORD $0xf940026814000044
DWORD $0x3941ed0af9400108
DWORD $0x3941f10834fff12a
DWORD $0x17ffff8635fff088
DWORD $0xf9400108f9400268
DWORD $0x34fff0483941d908
DWORD $0x17ffff7e52800088
DWORD $0xf9400108f9400268
DWORD $0x34ffef8a3941d10a
DWORD $0x5280010a3941d508
DWORD $0x528002087100011f
DWORD $0x17ffff749a880148
DWORD $0xf9400108f9400268
DWORD $0x34ffee483941e108
DWORD $0x17ffff6e52800048
DWORD $0x17ffff6c79404e68
DWORD $0xf9400108f9400268
DWORD $0x3400008a3941f50a
DWORD $0x7100015fb940210a
DWORD $0x3941f90b1a9f07ea
DWORD $0xb940310834ffecab
DWORD $0x1a8a03e87100011f
DWORD $0x528000683607ec28
DWORD $0xf940026817ffff5d
DWORD $0x3942090af9400108
DWORD $0x3941a90a34ffeb6a
DWORD $0x3941ad0a3400034a
DWORD $0x3941b10a34ffea8a
DWORD $0x3941b50a34fffc8a
DWORD $0x3941b90a34fffe6a
DWORD $0x3941bd0a34fffa0a
DWORD $0x3941c10a340002ea
DWORD $0x3941c50a340002ea
DWORD $0x3941c908340002ea
DWORD $0x528001087100011f
DWORD $0x17ffff449a880508
DWORD $0xf9400108f9400268
DWORD $0x34ffe8483941fd08
DWORD $0x17ffff3e528001a8
DWORD $0x17ffff3caa1f03e8
DWORD $0x54ffe7407102d15f
DWORD $0x54ffe7007104395f
DWORD $0x528000a817ffff39
DWORD $0x528000c817ffff35
DWORD $0x528000e817ffff33
DWORD $0x5280010817ffff31
DWORD $0x5280012817ffff2f
DWORD $0x5280014817ffff2d
DWORD $0x5280016817ffff2b
DWORD $0x5280018817ffff29
DWORD $0x528001c817ffff27
DWORD $0x528001e817ffff25
DWORD $0xaa1503e017ffff23
DWORD $0xa94257f6a9434ff4
WORD $0xf9400bfe
	ADD $64, RSP
WORD $0xd65f03c0
	// 47044: rtp_ext::block_elements::most_in_two_byte_form::<#d4d397b1ff315637>
WORD $0xf81d03fe
	SUB $48, RSP
WORD $0xf9000bfe
DWORD $0xa9402413a9024ff4
DWORD $0xf9400808aa1f03f4
DWORD $0x92401d4a14000007
	MOVD $rtp_wire_constants<>+2472(SB), R11
DWORD $0xf86a796a9100016b
DWORD $0xaa0903e18b140154
DWORD $0x54000122eb08003f
DWORD $0x394005298b010269
DWORD $0x910004295100052a
DWORD $0xaa0903e171003d5f
DWORD $0x17fffff054ffff02
DWORD $0x54000163f1003d1f
DWORD $0x54000128f103f83f
DWORD $0x97ffd4adaa1303e0
DWORD $0x52801fe891004009
DWORD $0xf103fd3faa0003e1
DWORD $0x17ffffeb9a883128
DWORD $0xa9424ff4aa1403e0
WORD $0xf9400bfe
	ADD $48, RSP
WORD $0xd65f03c0
	// 47212: rtp_ext::block_elements::write_values::<#defbc6cea7b2a850>
WORD $0xf81903fe
	SUB $112, RSP
WORD $0xf9000bfd
DWORD $0xa90367faa9026ffe
DWORD $0xa90557f6a9045ff8
DWORD $0x72001c7fa9064ff4
DWORD $0x9a88051a52800028
DWORD $0x54000182eb1a00bf
DWORD $0xaa1703e0aa1f03f7
DWORD $0xa94557f6a9464ff4
DWORD $0xa94367faa9445ff8
DWORD $0xf9400bfda9426ffe
	ADD $112, RSP
WORD $0xd65f03c0
	SUB $112, RSP
WORD $0xaa0503f3
DWORD $0x2a0303f5aa0403f4
DWORD $0xaa0103f9aa0203f6
DWORD $0xaa1f03f7aa0003f8
DWORD $0xaa1a03fbaa1f03fd
DWORD $0x53041fa81400000a
DWORD $0xb0101082a1d1108
DWORD $0x38376a8851000508
DWORD $0x8b1a02fb8b1b0037
DWORD $0x54fffc83eb1b027f
DWORD $0xeb19003faa1d03e1
DWORD $0x8b01030854000122
DWORD $0x394005089100043d
DWORD $0x51000508aa1d03e1
DWORD $0x54ffff087100391f
DWORD $0xf1003f3f1400000d
DWORD $0xf103f83f54fffae3
DWORD $0xaa1803e054fffaa8
DWORD $0x9100400997ffd466
DWORD $0xaa0003e152801fe8
DWORD $0x9a883139f103fd3f
WORD $0x17ffffeb
	MOVD $rtp_wire_constants<>+654(SB), R9
WORD $0x91000129
DWORD $0x3868692b10fffc6a
DWORD $0xd61f01408b0b094a
DWORD $0xf9400108f94002c8
DWORD $0x340010893941cd09
DWORD $0xf9400108d2869b69
DWORD $0xf2baf6c95292000a
DWORD $0x5280002072a07a0a
DWORD $0x52800061f2dbd049
DWORD $0x9bc97d09f2e86369
DWORD $0x9b0aa128d358fd29
DWORD $0x8b1b028ad296bdc9
DWORD $0xf2c218c9f2bef409
DWORD $0x9bc97d08d36eb508
DWORD $0x53187d095ac00908
DWORD $0x3900094953087d08
DWORD $0x1400007c79000148
DWORD $0xb4000da3f9400ec3
DWORD $0x8b1b0280a9408ac1
DWORD $0x94000080910082c4
DWORD $0x14000077aa0003e1
DWORD $0xf9400101f94002c8
DWORD $0x34fff70839420828
DWORD $0x97ffd2d78b1b0280
DWORD $0xf94002c81400006d
DWORD $0x3941d909f9400108
DWORD $0xb940390834000b29
DWORD $0xf94002c814000039
DWORD $0xf94001018b1b0280
DWORD $0x1400006297ffd327
DWORD $0x8b1b0280f94002c8
DWORD $0x97ffd25af9400101
DWORD $0xf94002c81400005d
DWORD $0xf94001018b1b0280
DWORD $0x1400005897ffd21f
DWORD $0xf9400108f94002c8
DWORD $0x340008893941ed09
DWORD $0x340008493941f109
DWORD $0x39413d0839413909
DWORD $0x7100013f13001d29
DWORD $0x7100011f5a895529
DWORD $0x1a8803e812800fe8
DWORD $0x383b6a8833001928
DWORD $0xf94002c814000045
DWORD $0xf94001018b1b0280
DWORD $0x1400004297ffd21d
DWORD $0xf9400108f94002c8
DWORD $0x340005c93941e509
DWORD $0x2a1f03e079408508
DWORD $0x7102cd1faa1f03e1
DWORD $0x340006a8540005ec
DWORD $0x540006c17101691f
DWORD $0x1400003152800060
DWORD $0xf9400108f94002c8
DWORD $0x340004093941dd09
DWORD $0x52800020b9403d08
DWORD $0x5ac0090852800081
DWORD $0x1400002ab83b6a88
DWORD $0xf9400108f94002c8
DWORD $0x340002c93941e109
DWORD $0x5280002079408108
DWORD $0x5ac0090852800041
DWORD $0x783b6a8853107d08
DWORD $0xf94002c81400001f
DWORD $0x39420428f9400101
DWORD $0x8b1b028034ffec68
DWORD $0x1400001897ffd227
DWORD $0xf9400108f94002c8
DWORD $0x340000893941e909
DWORD $0x383b6a8839413508
DWORD $0xaa1f03e11400000f
DWORD $0x1400000e2a1f03e0
DWORD $0x52800021383b6a9f
DWORD $0x7102d11f1400000e
DWORD $0x7104391f540000a0
DWORD $0x52800020540000e1
DWORD $0x5280004014000002
DWORD $0x52800021383b6a80
DWORD $0x12001c0852800020
DWORD $0x54ffe8c17100051f
DWORD $0x54ffe7c072001ebf
DWORD $0x3900011d8b170288
DWORD $0x17ffff3f39000501
	ADD $112, RSP
	// 48148: rtp_vla::writing::put_streams::<#0e5569fdf2589307>
WORD $0x531a6428
DWORD $0xb03110839401089
DWORD $0x510041080b090108
DWORD $0x3940108839000008
DWORD $0x3940148834000348
DWORD $0x91000d0852800029
DWORD $0x91000548d342fd0a
DWORD $0x2a1f03ebb5000923
DWORD $0xf100055f2a0903ec
DWORD $0xf100095f54001a8d
DWORD $0xf1000d5f54000360
DWORD $0x53087d6a54001b41
DWORD $0x8b09000953107d6d
DWORD $0x3900052a3900012b
DWORD $0x79400c893900092d
DWORD $0x1a9f1589eb09011f
DWORD $0x140000d4370019c9
DWORD $0x54000240f100047f
DWORD $0x39401488b5000283
DWORD $0x5280002c2a1f03eb
DWORD $0x91000d0852800029
DWORD $0x91000548d342fd0a
DWORD $0x5400172df100055f
DWORD $0x7829680b17ffffe5
DWORD $0xeb09011f79400c89
DWORD $0x370017691a9f1589
DWORD $0x39400088140000c1
DWORD $0x14000006531c6d08
DWORD $0x540000e8f100087f
DWORD $0x3940048939400088
DWORD $0x390004080b081128
DWORD $0x1400001452800049
DWORD $0x54000121f1000c7f
DWORD $0x3940048939400088
DWORD $0x394008890b081128
DWORD $0x2a09310812001d08
DWORD $0x1400000832180d08
DWORD $0x3940048939400088
DWORD $0x39400c8b3940088a
DWORD $0xb0a11690b081128
DWORD $0x5280006933185d28
DWORD $0x3940148878001008
DWORD $0xd342fd0a91000d08
DWORD $0x2a1f03eb8b090148
DWORD $0x52a8000daa1f03ec
DWORD $0x9100058c14000004
DWORD $0x540010a0eb03019f
DWORD $0x528000905280150e
DWORD $0x394281cf9b0e098e
DWORD $0x1a9031ef710011ff
DWORD $0xaa0e03f0cb0f03ef
DWORD $0xf10005ff910005ef
DWORD $0x39409a1154fffe60
DWORD $0xaa0e03f09100a20e
DWORD $0xf85d81c134ffff51
DWORD $0x528000907100123f
DWORD $0xf101fc3f1a903230
DWORD $0x38286801540000c8
DWORD $0x7100063f91000508
DWORD $0x1400001654000ce0
DWORD $0x54000122f140103f
DWORD $0xb0100a112191825
DWORD $0x7828680111020021
DWORD $0x7100063f91000908
DWORD $0x1400005c540001a1
DWORD $0xd34efc26d347fc25
DWORD $0x3828680132190021
DWORD $0xaa0503e191000508
DWORD $0x38286805b5ffff46
DWORD $0x7100063f91000508
DWORD $0xf85e01c154000a20
DWORD $0x540000c2f102003f
DWORD $0x9100050838286801
DWORD $0x5400094071000a3f
DWORD $0xf140103f14000016
DWORD $0x1219182554000122
DWORD $0x110200210b0100a1
DWORD $0x9100090878286801
DWORD $0x540001a171000a3f
DWORD $0xd347fc251400003f
DWORD $0x32190021d34efc26
DWORD $0x9100050838286801
DWORD $0xb5ffff46aa0503e1
DWORD $0x9100050838286805
DWORD $0x5400068071000a3f
DWORD $0xf102003ff85e81c1
DWORD $0x38286801540000c2
DWORD $0x71000e3f91000508
DWORD $0x14000016540005a0
DWORD $0x54000122f140103f
DWORD $0xb0100a112191825
DWORD $0x7828680111020021
DWORD $0x71000e3f91000908
DWORD $0x14000022540001a1
DWORD $0xd34efc26d347fc25
DWORD $0x3828680132190021
DWORD $0xaa0503e191000508
DWORD $0x38286805b5ffff46
DWORD $0x71000e3f91000508
DWORD $0xf85f01d1540002e0
DWORD $0x54000062f102023f
DWORD $0x1400001138286811
DWORD $0x540000e2f140123f
DWORD $0xb11003112191a21
DWORD $0x7828681111020231
DWORD $0x1400000a91000908
DWORD $0xd34efe25d347fe21
DWORD $0x3828681132190231
DWORD $0xaa0103f191000508
DWORD $0x38286801b5ffff45
DWORD $0x5100061091000508
DWORD $0x1b0d2e0bcb0f03ef
DWORD $0x17ffff8353027dad
DWORD $0x5ac0096b2a1f03ec
DWORD $0x54ffe5ccf100055f
DWORD $0xf100055fb400008a
DWORD $0x3829680b54000101
DWORD $0xeb09011f79400c89
DWORD $0x360001091a9f1589
DWORD $0xd65f03c0aa0803e0
DWORD $0x79400c89b829680b
DWORD $0x1a9f1589eb09011f
DWORD $0xaa1f03e93707ff49
DWORD $0x9100052914000004
DWORD $0x54fffea0eb03013f
DWORD $0x9b0a092b5280150a
DWORD $0x34ffff4a3942816a
DWORD $0x5280008c7100115f
DWORD $0x5280002a1a8c314c
DWORD $0xcb0c014a9100816b
DWORD $0x3500036c14000006
DWORD $0x9100a16b9100054a
DWORD $0x54fffdc0f100055f
DWORD $0x3940196c3940156d
DWORD $0x34ffff2c34ffff2d
DWORD $0x7940056d7940016c
DWORD $0x394011708b08000f
DWORD $0x5100058c91001508
DWORD $0x5ac0098c510005ad
DWORD $0x390011f05ac009ad
DWORD $0x53187d8c53107d8e
DWORD $0x53187dad53107db1
DWORD $0x390005ec390001ee
DWORD $0x39000ded390009f1
DWORD $0x9100216bcb0a03ec
DWORD $0x17ffffd4b5fffbea
	// 49312: rtp_c::writing::write_header_with
DWORD $0x37f8008939c13809
DWORD $0x71003d5f39413c0a
DWORD $0x5280012054000069
DWORD $0xf81803fed65f03c0
	SUB $128, RSP
WORD $0xf9002bfe
DWORD $0xa9074ff4a90657f6
DWORD $0x9100048ba94953e8
DWORD $0xf100056baa0303ec
DWORD $0xf940018d540001e0
DWORD $0x540000a3eb0d004d
DWORD $0x9100818cf940058e
DWORD $0x54ffff09eb0d01df
DWORD $0xa9474ff452800120
DWORD $0xa94657f6f9402bfe
	ADD $128, RSP
WORD $0xd65f03c0
	SUB $128, RSP
WORD $0xd37ef54b
DWORD $0xeb0b01089100316b
DWORD $0xd342fd089a8833e8
DWORD $0xd1000508b4000b08
DWORD $0x12001caf529fffeb
DWORD $0x3941440deb0b011f
DWORD $0x3941400b9a8b3108
DWORD $0xd37ef50e710005ff
DWORD $0x1a9f00c81a9f17ec
DWORD $0x710005ffb4000284
DWORD $0x72001cdf54000281
DWORD $0x9100606f54000241
DWORD $0xf85f01f1aa0403f0
DWORD $0xd1000635384205f3
DWORD $0xf1003ebf51000673
DWORD $0xfa5191c07a4d9a62
DWORD $0x91000631540007c9
DWORD $0x9a8e33eeeb1101ce
DWORD $0x54fffe81f1000610
DWORD $0x140000142a0803f3
DWORD $0xaa0403f09100606f
DWORD $0xf85f01f12a0803f3
DWORD $0x54000628f103fe3f
DWORD $0x340005f5384205f5
DWORD $0x540005a9eb1101df
DWORD $0xd100063191000636
DWORD $0x9a8e33eeeb1601ce
DWORD $0xfa503a2271003ebf
DWORD $0xf10006101a9f3673
DWORD $0x72001e7f54fffe21
DWORD $0xeb0e009f54000060
DWORD $0xfd400400540004a8
DWORD $0x52801608710001bf
DWORD $0x7940980d5280120c
DWORD $0x12800fec1a880188
DWORD $0x2e2008007100017f
DWORD $0x1a8c03ea2a0a0108
DWORD $0x2a0901495ac009ab
DWORD $0x53107d6a390000e8
DWORD $0x790004ea390004e9
DWORD $0x39413c08fc0040e0
DWORD $0xad40840034000868
DWORD $0x3dc00c027100211f
DWORD $0x3cc3c000ad0087e0
DWORD $0x3c83c3e03d800fe2
DWORD $0xaa1f03e9540007a2
DWORD $0x1400004c52800195
DWORD $0x7100051f12001ca8
DWORD $0x1a9f00c81a9f17ec
DWORD $0x3400028cb4000584
DWORD $0x5400024172001cdf
DWORD $0x321e3fe99100606a
DWORD $0xf85f014caa0403eb
DWORD $0xd100058e3842054d
DWORD $0xf1003ddf510005ad
DWORD $0xfa4c91207a4d99a2
DWORD $0x9100058c54fff149
DWORD $0x9a8933e9eb0c0129
DWORD $0x54fffe81f100056b
DWORD $0x9100606a14000014
DWORD $0xaa0403eb321e3fe9
DWORD $0xf103fd9ff85f014c
DWORD $0x3842054d54ffefc8
DWORD $0xeb0c013f34ffef8d
DWORD $0x9100058e54ffef49
DWORD $0xeb0e0129d100058c
DWORD $0x71003dbf9a8933e9
DWORD $0x1a9f3508fa503982
DWORD $0x54fffe21f100056b
DWORD $0xeb09009f12001d08
DWORD $0x54ffeda17a408904
DWORD $0xa9474ff452800100
DWORD $0xa94657f6f9402bfe
	ADD $128, RSP
WORD $0xd65f03c0
	SUB $128, RSP
WORD $0x52800195
DWORD $0x927d11091400001c
DWORD $0x910043eb52800195
DWORD $0x9100416bd343fd2a
DWORD $0xb37b1155927d110c
DWORD $0xad7f8560910070ea
DWORD $0x9100816bf100218c
DWORD $0x6e2008216e200800
DWORD $0x9100814aad3f8540
DWORD $0xeb08013f54ffff21
DWORD $0x910043ea54000140
DWORD $0x8b09094acb090108
DWORD $0xf1000508b8404549
DWORD $0xb83568e95ac00929
DWORD $0x54ffff61910012b5
DWORD $0xa9010be18b1500f6
DWORD $0x910012c0910043e2
DWORD $0xa90213e32a1303e1
DWORD $0x91000c0897ffd90b
DWORD $0xeb00012a927ef509
DWORD $0x540001e091001009
DWORD $0x540000c0f100095f
DWORD $0x540000e1f100055f
DWORD $0x9100140938296adf
DWORD $0x78296adf14000008
DWORD $0x1400000591001809
DWORD $0x91001c098b0902ca
DWORD $0x7900015f3900095f
DWORD $0x72001e7f530a7d0a
DWORD $0x529bd7cc5280020b
DWORD $0x2a1f03e053027d08
DWORD $0x33101d4b1a8b018b
DWORD $0x8b15012833081d0b
DWORD $0xf9000288b90002cb
DWORD $0xf9402bfea9474ff4
WORD $0xa94657f6
	ADD $128, RSP
WORD $0xd65f03c0
	// 50316: rtp_c::routed_headers::write_again
WORD $0xf81703fe
	SUB $144, RSP
WORD $0xf9001bfd
DWORD $0xa90567faa9046ffe
DWORD $0xa90757f6a9065ff8
DWORD $0x91000833a9084ff4
DWORD $0xeb13011fcb0500e8
DWORD $0xaa1f03f354000082
DWORD $0x140000712a1f03e0
DWORD $0x39408090aa0103f4
DWORD $0x2942688e39406c99
DWORD $0x3940688939407c8f
DWORD $0x39407897d100c428
DWORD $0xaa0303f57940309b
DWORD $0x394074983940708d
DWORD $0x7940489daa0003e1
DWORD $0x8b0500d6b100891f
DWORD $0x5400026829075fe9
DWORD $0xa901d3e2aa1603e0
DWORD $0xb9002ffdaa1403e2
DWORD $0x2a0e03f42a0d03f3
DWORD $0x2a1003fd2a0f03f7
DWORD $0x2a1403ee97ffea59
DWORD $0x2a1d03f0a941d3e2
DWORD $0x2a1703efb9402ffd
DWORD $0x91000a932a1303ed
DWORD $0x1400001135000190
DWORD $0xf100869f3dc00020
DWORD $0x540000633d8002c0
DWORD $0x3d8006c03dc00420
DWORD $0x3ce86820d1004288
DWORD $0x340000f03ca86ac0
DWORD $0x12800fe87100033f
DWORD $0x1a8803e8394006c9
DWORD $0x390006c833001928
DWORD $0x340000cfb9403ff7
DWORD $0xb9403be9394006c8
DWORD $0xb09010812190108
DWORD $0x34000077390006c8
DWORD $0x790006c85ac00768
DWORD $0x5ac009c83400006d
DWORD $0x34000078b90006c8
DWORD $0xb9000ac85ac00b48
DWORD $0xb40004b939411859
DWORD $0x91011c5b9100105a
DWORD $0x8b0802c014000008
DWORD $0xaa1703e2aa1503e1
DWORD $0xf10007399400002d
DWORD $0x540003608b1702b5
DWORD $0xb840474838401777
DWORD $0x710006ff34fffef7
DWORD $0x394002a954000081
DWORD $0x17fffff638286ac9
DWORD $0x5400008871000aff
DWORD $0x78286ac9794002a9
DWORD $0x71000eff17fffff1
DWORD $0x794002a9540000e1
DWORD $0x790001098b0802c8
DWORD $0x3900090939400aa9
DWORD $0x710012ff17ffffe9
DWORD $0xb94002a954fffc68
DWORD $0x17ffffe4b8286ac9
DWORD $0x52800020394002c8
DWORD $0x390002c8121a7908
DWORD $0x78346ac85ac007a8
DWORD $0xa9484ff4aa1303e1
DWORD $0xf9401bfda94757f6
DWORD $0xa94567faa9465ff8
WORD $0xa9446ffe
	ADD $144, RSP
WORD $0xd65f03c0
	// 50860: rtp_route::slots::copy_long
WORD $0xcb010009
DWORD $0x54000142eb02013f
DWORD $0xaa1f03e8f100205f
DWORD $0xf100813f54000423
DWORD $0xf100805f540003e3
DWORD $0xaa1f03e854000082
DWORD $0x1400367d14000010
DWORD $0x927be848927d0449
DWORD $0x9100400b9100402a
DWORD $0xad7f8540927be84c
DWORD $0x9100814af100818c
DWORD $0x9100816bad3f8560
DWORD $0xeb08005f54ffff61
DWORD $0xb400018954000280
DWORD $0x927df048aa0803eb
DWORD $0x8b0b002acb080169
DWORD $0xfc4085408b0b000b
DWORD $0xfc008560b1002129
DWORD $0xeb08005f54ffffa1
DWORD $0xcb08004954000100
DWORD $0x8b0800088b08002a
DWORD $0xf10005293840154b
DWORD $0x54ffffa13800150b
WORD $0xd65f03c0
	// 51044: rtp_c::routed_headers::refuse
WORD $0xaa0003e8
DWORD $0xb9002802f9000401
DWORD $0xb9002d1faa0103e0
WORD $0xd65f03c0
	// 51068: rtp_c::writing_values::write_without_block
WORD $0xf81b03fe
	SUB $80, RSP
WORD $0x39434408
DWORD $0x79413409340001a8
DWORD $0x7102cd3f52800128
DWORD $0x34000109540000ac
DWORD $0x540000c07101693f
DWORD $0x7104393f14000048
DWORD $0x7102d13f54000060
DWORD $0x3943540854000881
DWORD $0xb940780834000068
DWORD $0x3943580834001308
DWORD $0xb940880834000068
DWORD $0x39434c0834001288
DWORD $0x3942980834000088
DWORD $0x373811e81101fd08
DWORD $0x340003c839436008
DWORD $0xaa0003e84f01e400
DWORD $0x3cca8d014f04e4a2
DWORD $0x4f07e4c44f06e4c3
WORD $0x4f07e6c5
	MOVD $rtp_wire_constants<>+128(SB), R9
WORD $0x4ea01c20
DWORD $0x4e2384224e228400
DWORD $0x6e2034804f02e7e3
DWORD $0x6e238c216e2234a2
DWORD $0x4e611c004e201c40
DWORD $0x4e211c003dc00121
DWORD $0x4e0138006e004001
DWORD $0x1e2600094e71b800
DWORD $0x5ac0012932100129
DWORD $0x386949085ac01129
DWORD $0x3943640835000e08
DWORD $0xaa0003e8340006c8
DWORD $0x340002e9384b9d09
DWORD $0x340002e93942e809
DWORD $0x340002e93942ec09
DWORD $0x340002e93942f009
DWORD $0x340002e93942f409
DWORD $0x340002e93942f809
DWORD $0x340002e93942fc09
DWORD $0x340002e939430009
DWORD $0x35000b6939430409
DWORD $0x1400001452800109
WORD $0x2a0803e0
	ADD $80, RSP
WORD $0xd65f03c0
	SUB $80, RSP
DWORD $0x1400000eaa1f03e9
DWORD $0x1400000c52800029
DWORD $0x1400000a52800049
DWORD $0x1400000852800069
DWORD $0x1400000652800089
DWORD $0x14000004528000a9
DWORD $0x14000002528000c9
DWORD $0xb40001a9528000e9
DWORD $0xd10005293840150a
DWORD $0x54ffff8071017d5f
DWORD $0x7100297f5100c14b
DWORD $0x121a794a54ffff23
DWORD $0x7100695f5101054a
DWORD $0x1400003954fffea3
DWORD $0x3400064839436808
DWORD $0x384c2d09aa0003e8
DWORD $0x39430c0934000269
DWORD $0x3943100934000269
DWORD $0x3943140934000269
DWORD $0x3943180934000269
DWORD $0x39431c0934000269
DWORD $0x3943200934000269
DWORD $0x3943240934000269
DWORD $0x3943280934000269
DWORD $0x5280010935000489
DWORD $0xaa1f03e914000010
DWORD $0x528000291400000e
DWORD $0x528000491400000c
DWORD $0x528000691400000a
DWORD $0x5280008914000008
DWORD $0x528000a914000006
DWORD $0x528000c914000004
DWORD $0x528000e914000002
DWORD $0x3840150ab40001a9
DWORD $0x71017d5fd1000529
DWORD $0x5100c14b54ffff80
DWORD $0x54ffff237100297f
DWORD $0x5101054a121a794a
DWORD $0x54fffea37100695f
DWORD $0x39c1380814000006
DWORD $0x39413c0937f80088
DWORD $0x540000c971003d3f
DWORD $0x2a0803e052800128
	ADD $80, RSP
WORD $0xd65f03c0
	SUB $80, RSP
WORD $0xd37ef52a
DWORD $0xeb0a005f9100314a
DWORD $0x52800108540000c2
WORD $0x2a0803e0
	ADD $80, RSP
WORD $0xd65f03c0
	SUB $80, RSP
DWORD $0xfd4004003941440a
DWORD $0x7940980b5280140c
DWORD $0x7100015f5280100d
DWORD $0x2e2008003941400a
DWORD $0x12800fed1a8c01ac
DWORD $0x7100015f5ac0096b
DWORD $0x2a09018953107d6a
DWORD $0x390000291a8d03eb
DWORD $0x7900042a2a080168
DWORD $0xfc00402039000428
DWORD $0x3400018839413c08
DWORD $0x7100211fad408400
DWORD $0xad0087e03dc00c02
DWORD $0x3d800fe23cc3c000
DWORD $0x540001623c83c3e0
DWORD $0x52800189aa1f03ea
DWORD $0x528001891400001a
DWORD $0xf90000692a1f03e8
WORD $0x2a0803e0
	ADD $80, RSP
WORD $0xd65f03c0
	SUB $80, RSP
DWORD $0x52800189927d110a
DWORD $0xd343fd4b910043ec
DWORD $0x927d110d9100418c
DWORD $0x9100702bb37b1169
DWORD $0xf10021adad7f8580
DWORD $0x6e2008009100818c
DWORD $0xad3f85606e200821
DWORD $0x54ffff219100816b
DWORD $0x54000140eb08015f
DWORD $0xcb0a0108910043eb
DWORD $0xb840456a8b0a096b
DWORD $0x5ac0094af1000508
DWORD $0x91001129b829682a
DWORD $0x2a1f03e854ffff61
DWORD $0x2a0803e0f9000069
	ADD $80, RSP
WORD $0xd65f03c0
	// 52096: rtp_ext::block_elements::write_values::<#16f98aa29e959305>
WORD $0xf81903fe
	SUB $112, RSP
DWORD $0xa9026ffef9000bfd
DWORD $0xa9045ff8a90367fa
DWORD $0xa9064ff4a90557f6
DWORD $0x5280002872001c7f
DWORD $0xeb1a00bf9a88051a
DWORD $0xaa1f03f754000182
DWORD $0xa9464ff4aa1703e0
DWORD $0xa9445ff8a94557f6
DWORD $0xa9426ffea94367fa
WORD $0xf9400bfd
	ADD $112, RSP
WORD $0xd65f03c0
	SUB $112, RSP
DWORD $0xaa0403f4aa0503f3
DWORD $0xaa0203f62a0303f5
DWORD $0xaa0003f8aa0103f9
DWORD $0xaa1f03fbaa1f03f7
DWORD $0x1400000aaa1a03fd
DWORD $0x2a1b110853041f68
DWORD $0x510005080b010108
DWORD $0x8b1d003738376a88
DWORD $0xeb1d027f8b1a02fd
DWORD $0xaa1b03e154fffc83
DWORD $0x54000122eb19003f
DWORD $0x9100043b8b010308
DWORD $0xaa1b03e139400508
DWORD $0x7100391f51000508
DWORD $0x1400000d54ffff08
DWORD $0x54fffae3f1003f3f
DWORD $0x54fffaa8f103f83f
DWORD $0x97ffcfa1aa1803e0
DWORD $0x52801fe891004009
DWORD $0xf103fd3faa0003e1
DWORD $0x17ffffeb9a883139
	MOVD $rtp_wire_constants<>+669(SB), R9
DWORD $0x10fffc6a91000129
DWORD $0x8b0b094a3868692b
DWORD $0x3941cec8d61f0140
DWORD $0xd2869b6934fffbc8
DWORD $0x5292000af94002c8
DWORD $0x72a07a0af2baf6c9
DWORD $0xf2dbd04952800061
DWORD $0x9bc97d09f2e86369
DWORD $0x9b0aa128d358fd29
DWORD $0x8b1d028ad296bdc9
DWORD $0xf2c218c9f2bef409
DWORD $0x9bc97d08d36eb508
DWORD $0x53187d095ac00908
DWORD $0x3900094953087d08
DWORD $0x1400006179000148
DWORD $0x34fff8a83941dec8
DWORD $0x14000017b9403ec8
DWORD $0x34fff8283941e6c8
DWORD $0x7102cd1f794086c8
DWORD $0x3400042854000bcc
DWORD $0x54fff7617101691f
DWORD $0x1400001d52800068
DWORD $0x34fff6e8394206c8
DWORD $0xaa1603e18b1d0280
DWORD $0x12001c0897ffcdb5
DWORD $0x54fff6217100051f
DWORD $0x3941dac81400004a
DWORD $0xb9403ac834fff5c8
DWORD $0xb83d6a885ac00908
DWORD $0x1400004352800081
DWORD $0x34fff4e839420ac8
DWORD $0xaa1603e18b1d0280
DWORD $0x12001c0897ffce00
DWORD $0x54fff4217100051f
DWORD $0x3941eac81400003a
DWORD $0x394136c834fff3c8
DWORD $0x52800021383d6a88
DWORD $0x8b1d028014000034
DWORD $0x97ffcd50aa1603e1
DWORD $0x7100051f12001c08
DWORD $0x1400002d54fff281
DWORD $0x34fff2283941eec8
DWORD $0x34fff1e83941f2c8
DWORD $0x39413ec939413ac8
DWORD $0x13001d0852800021
DWORD $0x5a8855087100011f
DWORD $0x12800fe97100013f
DWORD $0x330019091a8903e9
DWORD $0x1400001d383d6a89
DWORD $0x34fff0283941e2c8
DWORD $0x52800041794082c8
DWORD $0x53107d085ac00908
DWORD $0x14000015783d6a88
DWORD $0xaa1603e18b1d0280
DWORD $0x12001c0897ffce2f
DWORD $0x54ffeea17100051f
DWORD $0x8b1d02801400000e
DWORD $0x97ffcd60aa1603e1
DWORD $0x7100051f12001c08
DWORD $0x1400000754ffedc1
DWORD $0xaa1603e18b1d0280
DWORD $0x12001c0897ffcd37
DWORD $0x54ffece17100051f
DWORD $0x54ffebe072001ebf
DWORD $0x3900011b8b170288
DWORD $0x17ffff6039000501
DWORD $0x540000a07102d11f
DWORD $0x54ffeba17104391f
DWORD $0x17ffffbf52800028
DWORD $0x17ffffbd52800048
	ADD $112, RSP
	// 52932: rtp_c::writing_values::write_with_block
WORD $0xf81303fe
	SUB $208, RSP
WORD $0xa90717fd
DWORD $0xa90967faa9086ffe
DWORD $0xa90b57f6a90a5ff8
DWORD $0x39c13836a90c4ff4
DWORD $0x39413c3837f80096
DWORD $0x5400006971003f1f
DWORD $0x1400013652800120
DWORD $0x910042a8d37ef715
DWORD $0x54000062eb08007f
DWORD $0x1400013052800100
DWORD $0x3dc01003ad411000
DWORD $0x3dc02002ad428407
DWORD $0xad4640063dc03811
DWORD $0xad4494034ea01c60
DWORD $0x4ea41ce44ea11c41
DWORD $0x4ea51cc53dc01c02
DWORD $0x4ea01c203dc02c06
DWORD $0x4ea61e024ea21c61
DWORD $0x3dc03c054ea51e23
DWORD $0x4ea21ca24ea41c21
DWORD $0x3dc004034ea01c60
DWORD $0x4ea31c004ea11c41
DWORD $0x6e0040014ea11c00
DWORD $0x9e6600080ea11c00
DWORD $0xd350fd09aa488108
DWORD $0x2a4821082a090108
DWORD $0x5400082072001d1f
DWORD $0x394200a8528001f3
DWORD $0x394140a8340009c8
DWORD $0x1a9f17e97100011f
DWORD $0x34000988394204a8
DWORD $0x7100011f394184a8
DWORD $0x394208a81a9f17ea
DWORD $0x3941a8a834000088
DWORD $0x1a9f17e87100011f
DWORD $0x3cc010014f00e5e0
DWORD $0x3941442c3941402b
DWORD $0xb90027ebf90017e4
DWORD $0x6e30a8006e208c20
DWORD $0x360007cb1e26000b
DWORD $0xf1003e7f8b130e68
DWORD $0x5280003452823dc9
DWORD $0x9a893108d37ff908
DWORD $0x91001d08cb150069
DWORD $0xeb1b011fd100313b
DWORD $0xb4000e5354001349
DWORD $0x9101e3e2f9000fe2
DWORD $0xaa1303e1aa0103f7
DWORD $0x2a1403e3aa0303f9
DWORD $0xaa1303fdaa0003f5
DWORD $0xaa0503fa2a1403f3
DWORD $0x97fff7c12a0c03f4
DWORD $0x2a1403ecf9400fe2
DWORD $0xaa1703e191000c08
DWORD $0x927ef508aa1903e3
DWORD $0x2a1303f4aa1a03e5
DWORD $0xaa1503e0aa1d03f3
DWORD $0xeb1b011f91001108
DWORD $0x1400007f54fff3c8
WORD $0x3dc00000
	MOVD $rtp_wire_constants<>+128(SB), R8
WORD $0x3dc00101
DWORD $0x4e601c204e209800
DWORD $0x4e0138006e004001
DWORD $0x1e2600084e71b800
DWORD $0x92403d0832000108
DWORD $0xd2401513dac01108
DWORD $0x35fff688394200a8
DWORD $0x394204a82a1f03e9
DWORD $0x2a1f03ea35fff6c8
DWORD $0x35fff708394208a8
DWORD $0xf1003e7f17ffffba
DWORD $0x540008432a0a0129
DWORD $0x3cc1f0016f07e7e0
DWORD $0x3cc0f0033cc3f002
DWORD $0x3cc5f0053cc2f004
DWORD $0x3943fc0a3cc4f006
DWORD $0x4e2084424e208421
DWORD $0x4e2084844e208463
DWORD $0x4e2084c64e2084a5
DWORD $0x6e226c215100054a
DWORD $0x71003d5f3cc7f002
DWORD $0x3cc6f0046e246c63
DWORD $0x4e2084421a9f27eb
DWORD $0x4e2084846e256c21
DWORD $0x6e266c633cc9f005
DWORD $0x4e2084a53cc8f006
DWORD $0x4e2084c66e226c21
DWORD $0x6e246c633ccbf002
DWORD $0x4e2084423ccaf004
DWORD $0x4e2084846e256c21
DWORD $0x6e266c633ccdf005
DWORD $0x6e226c213cccf006
DWORD $0x4e2084a36e246c62
DWORD $0x6e236c214e2084c4
DWORD $0x4f00e5e36e246c42
DWORD $0x6e226c213ccef004
DWORD $0x4e2084806f00e402
DWORD $0x6e2034606e213461
DWORD $0x6e0104226e30a821
DWORD $0x4f0f54004ea01c40
DWORD $0x6e30a8004e20a800
DWORD $0x2a0b014a1e26000a
DWORD $0x5280008814000006
DWORD $0x54ffe868eb1b011f
DWORD $0x2a1f03ea14000024
DWORD $0x370002aa2a080128
DWORD $0x3700026952000109
DWORD $0x9101e3e2aa0203fb
DWORD $0xaa1303e1aa0103f7
DWORD $0xaa0503fdaa0003f4
DWORD $0x2a0c03faaa0303f9
DWORD $0x2a1a03ec97fff713
DWORD $0xaa1b03e2aa1703e1
DWORD $0xaa1d03e5aa1903e3
DWORD $0xaa1403e02a0003e8
DWORD $0x140000033707ed48
DWORD $0x3707ece82a0a0108
DWORD $0xf1003e7f8b131268
DWORD $0x2a1f03f452821de9
DWORD $0xcb1500699a893108
DWORD $0xd100313b91001d08
DWORD $0x54ffed08eb1b011f
DWORD $0x7940982afd400420
DWORD $0xb94027eb7100019f
DWORD $0x5280120952801608
DWORD $0x1a8801282e200800
DWORD $0x7100017f12800fe9
DWORD $0x2a1801085ac0094a
DWORD $0x53107d4a1a8903e9
DWORD $0x2a16012939000048
DWORD $0x7900044a39000449
DWORD $0x39413c28fc004040
DWORD $0xad40842034000188
DWORD $0x3dc00c227100211f
DWORD $0x3cc3c020ad0187e0
DWORD $0x3c85c3e03d8017e2
DWORD $0xaa1f03e9540000c2
DWORD $0x1400001552800196
DWORD $0x1400001c52800196
DWORD $0x52800196927d1109
DWORD $0xd343fd2a9100c3eb
DWORD $0x927d110c9100416b
DWORD $0x9100704ab37b1156
DWORD $0xf100218cad7f8560
DWORD $0x6e2008009100816b
DWORD $0xad3f85406e200821
DWORD $0x54ffff219100814a
DWORD $0x54000140eb08013f
DWORD $0xcb0901089100c3ea
DWORD $0xb84045498b09094a
DWORD $0x5ac00929f1000508
DWORD $0x910012d6b8366849
DWORD $0xcb16006854ffff61
DWORD $0xaa1303e18b160055
DWORD $0x910012a4d1001108
DWORD $0x2a1403e3aa0503e2
DWORD $0x97fffdf5aa0803e5
DWORD $0xaa1503e0aa0003e2
DWORD $0x97ffd4fc2a1403e1
DWORD $0x2a1f03e0aa0003e8
DWORD $0xf94017e88b160109
DWORD $0xa94c4ff4f9000109
DWORD $0xa94b57f6f9403bfd
DWORD $0xa94967faa94a5ff8
WORD $0xa9486ffe
	ADD $208, RSP
WORD $0xd65f03c0
	// 54260: rtpw_data_of
WORD $0xf81b03fe
	SUB $80, RSP
WORD $0xa90167fe
DWORD $0xa90357f6a9025ff8
DWORD $0xf100005fa9044ff4
DWORD $0x5282000812001c09
DWORD $0x71003d3f9a9f0108
DWORD $0x92401c0a54001248
	MOVD $rtp_wire_constants<>+684(SB), R11
DWORD $0x100000ec9100016b
DWORD $0x8b0d098c386a696d
DWORD $0x528001202a1f03e9
DWORD $0xd61f01805280002a
DWORD $0x3941e43552800029
DWORD $0x14000040350006b5
DWORD $0x3941e435528001a9
DWORD $0x1400003c35000635
DWORD $0x3941e43552800149
DWORD $0x14000038350005b5
DWORD $0x3941e43552800069
DWORD $0x1400003435000535
DWORD $0x3941e43552800169
DWORD $0x14000030350004b5
DWORD $0x3941e43552800109
DWORD $0x1400002c35000435
DWORD $0x3941e435528001c9
DWORD $0x14000028350003b5
DWORD $0x3941e43552800049
DWORD $0x1400002435000335
DWORD $0x3941e435528000c9
DWORD $0x14000020350002b5
DWORD $0x3941e43552800089
DWORD $0x1400001c35000235
DWORD $0x3941e43552800189
DWORD $0x14000018350001b5
DWORD $0x3941e435528000a9
DWORD $0x1400001435000135
DWORD $0x3941e43552800129
DWORD $0x14000010350000b5
DWORD $0x3941e435528000e9
DWORD $0x7940842b340001b5
DWORD $0x7102cd7f52800120
DWORD $0x3400010b540000ac
DWORD $0x540000c07101697f
DWORD $0x7104397f140000b1
DWORD $0x7102d17f54000060
DWORD $0x3941f42c540015a1
DWORD $0xb940202b3400006c
DWORD $0x3941f82b340012cb
DWORD $0xb940302d3400006b
DWORD $0x3941ec363400124d
DWORD $0x3941382d34000096
DWORD $0x373811ad1101fdad
DWORD $0x340003cd3942002d
DWORD $0xaa0103ed4f01e400
DWORD $0x3cc50da14f04e4a2
DWORD $0x4f07e4c44f06e4c3
WORD $0x4f07e6c5
	MOVD $rtp_wire_constants<>+128(SB), R14
WORD $0x4ea01c20
DWORD $0x4e2384224e228400
DWORD $0x6e2034804f02e7e3
DWORD $0x6e238c216e2234a2
DWORD $0x4e611c004e201c40
DWORD $0x4e211c003dc001c1
DWORD $0x4e0138006e004001
DWORD $0x1e26000e4e71b800
DWORD $0x5ac001ce321001ce
DWORD $0x386e49ad5ac011ce
DWORD $0x3942042d35000dcd
DWORD $0xaa0103ed3400074d
DWORD $0x3400036e38461dae
DWORD $0x3400036e3941882e
DWORD $0x3400036e39418c2e
DWORD $0x3400036e3941902e
DWORD $0x3400036e3941942e
DWORD $0x3400036e3941982e
DWORD $0x3400036e39419c2e
DWORD $0x3400036e3941a02e
DWORD $0x35000b2e3941a42e
DWORD $0x140000185280010e
DWORD $0x7100513f13001c09
DWORD $0x2a1f03ea54000a8c
DWORD $0x3941e4352a1f03e9
DWORD $0x17ffffb635fff575
DWORD $0x1400000eaa1f03ee
DWORD $0x1400000c5280002e
DWORD $0x1400000a5280004e
DWORD $0x140000085280006e
DWORD $0x140000065280008e
DWORD $0x14000004528000ae
DWORD $0x14000002528000ce
DWORD $0xb40001ae528000ee
DWORD $0xd10005ce384015af
DWORD $0x54ffff8071017dff
DWORD $0x71002a1f5100c1f0
DWORD $0x121a79ef54ffff23
DWORD $0x710069ff510105ef
DWORD $0x1400003354fffea3
DWORD $0x3400072d3942082d
DWORD $0x3846adaeaa0103ed
DWORD $0x3941ac2e3400026e
DWORD $0x3941b02e3400026e
DWORD $0x3941b42e3400026e
DWORD $0x3941b82e3400026e
DWORD $0x3941bc2e3400026e
DWORD $0x3941c02e3400026e
DWORD $0x3941c42e3400026e
DWORD $0x3941c82e3400026e
DWORD $0x5280010e350003ce
DWORD $0xaa1f03ee14000010
DWORD $0x5280002e1400000e
DWORD $0x5280004e1400000c
DWORD $0x5280006e1400000a
DWORD $0x5280008e14000008
DWORD $0x528000ae14000006
DWORD $0x528000ce14000004
DWORD $0x528000ee14000002
DWORD $0x384015afb400028e
DWORD $0x71017dffd10005ce
DWORD $0x5100c1f054ffff80
DWORD $0x54ffff2371002a1f
DWORD $0x510105ef121a79ef
DWORD $0x54fffea3710069ff
DWORD $0xa9444ff452800120
DWORD $0xa9425ff8a94357f6
WORD $0xa94167fe
	ADD $80, RSP
WORD $0xd65f03c0
	SUB $80, RSP
DWORD $0x8b080053340009aa
WORD $0x2a0903f7
	MOVD $rtp_wire_constants<>+700(SB), R8
WORD $0x91000108
DWORD $0x1000008952800160
DWORD $0x8b0a09293877690a
DWORD $0xa9444ff4d61f0120
DWORD $0xa9425ff8a94357f6
WORD $0xa94167fe
	ADD $80, RSP
WORD $0xd65f03c0
	SUB $80, RSP
DWORD $0x140000113941dc28
DWORD $0x79408428340013d5
DWORD $0x7102cd1f52800020
DWORD $0x34001348540012cc
DWORD $0x540013007101691f
DWORD $0xaa0103e014000096
DWORD $0xaa0103f8aa0403f4
DWORD $0x97ffc9e7aa0303f9
DWORD $0x3941d82814000041
DWORD $0x528000887100011f
DWORD $0x9a9f11141a9f07e0
DWORD $0x7100051f12001c08
DWORD $0x1400003f54000461
DWORD $0xaa0403f4aa0103e0
DWORD $0xaa0303f9aa0103f8
DWORD $0x1400003297ffca0b
DWORD $0x7100011f3941e828
DWORD $0x3941d02814000015
DWORD $0x3941d42834fffaa8
DWORD $0x7100011f52800109
DWORD $0x9a88013452800208
DWORD $0x3941cc281400002e
DWORD $0x528000687100011f
DWORD $0x9a9f11141a9f07e0
DWORD $0x7100051f12001c08
DWORD $0x1400002554000121
DWORD $0x710002df3941f028
DWORD $0x1a9f07f47a401904
DWORD $0x7100051f12001e88
DWORD $0x52800160540003c0
DWORD $0xa94357f6a9444ff4
DWORD $0xa94167fea9425ff8
	ADD $80, RSP
WORD $0xd65f03c0
	SUB $80, RSP
WORD $0x3941e028
DWORD $0x528000487100011f
DWORD $0x9a9f11141a9f07e0
DWORD $0x7100051f12001c08
DWORD $0x1400000d54fffe21
DWORD $0xaa0403f4aa0103e0
DWORD $0xaa0303f9aa0103f8
DWORD $0xaa1903e397ffca0c
DWORD $0xaa0103f4aa1403e4
DWORD $0x12001c08aa1803e1
DWORD $0x54fffc817100051f
DWORD $0x54000122eb14007f
DWORD $0xa9444ff452800100
DWORD $0xa9425ff8a94357f6
WORD $0xa94167fe
	ADD $80, RSP
WORD $0xd65f03c0
	SUB $80, RSP
	MOVD $rtp_wire_constants<>+715(SB), R8
DWORD $0x1000008991000108
DWORD $0x8b0a09293877690a
DWORD $0x3941cc28d61f0120
DWORD $0xd2869b69340010c8
DWORD $0x5292000af9400028
DWORD $0x72a07a0af2baf6c9
DWORD $0xf2e86369f2dbd049
DWORD $0xd358fd299bc97d09
DWORD $0xd296bdc99b0aa128
DWORD $0xf2c218c9f2bef409
DWORD $0x9bc97d08d36eb508
DWORD $0x53187d095ac00908
DWORD $0x39000a6953087d08
DWORD $0x1400007179000268
DWORD $0x7100011f3941fc28
DWORD $0x1a9f07e0528001a8
DWORD $0x12001c089a9f1114
DWORD $0x54fffa207100051f
DWORD $0x340000ac17ffffb3
DWORD $0x7100011fb9402028
DWORD $0x140000021a9f07e8
DWORD $0x340000ab2a1f03e8
DWORD $0x7100013fb9403029
DWORD $0x140000021a9f07e9
DWORD $0x6a0901002a1f03e9
DWORD $0x9a9f111452800068
DWORD $0x7100051f12001c08
DWORD $0x17ffffbd54fff421
DWORD $0x540000807102d11f
DWORD $0x540000407104391f
DWORD $0x2a0003f42a1f03e0
DWORD $0x7100051f12001c08
DWORD $0x17ffffb354fff2e1
DWORD $0xaa0403f3aa1303e0
DWORD $0xaa1303e497ffcb0d
DWORD $0x340008b514000046
DWORD $0x7102cd1f79408428
DWORD $0x340004a85400096c
DWORD $0x540007e17101691f
DWORD $0x1400002152800068
DWORD $0x340007683941dc28
DWORD $0x14000017b9403c28
DWORD $0xaa0403f3aa1303e0
DWORD $0xaa1303e497ffca45
DWORD $0x3400067614000034
DWORD $0x340006283941f028
DWORD $0x39413c2939413828
DWORD $0x7100011f13001d08
DWORD $0x7100013f5a885508
DWORD $0x1a8903e912800fe9
DWORD $0x3900026933001909
DWORD $0x3941d82814000026
DWORD $0xb940382834000488
DWORD $0xb90002685ac00908
DWORD $0x3941e82814000020
DWORD $0x39413428340003c8
DWORD $0x1400001b39000268
DWORD $0xaa0403f3aa1303e0
DWORD $0xaa1303e497ffc9df
DWORD $0x3941e02814000016
DWORD $0x7940802834000288
DWORD $0x53107d085ac00908
DWORD $0x1400000f79000268
DWORD $0xaa0403f3aa1303e0
DWORD $0xaa1303e497ffc9e7
DWORD $0xaa1303e01400000a
DWORD $0x97ffca71aa0403f3
DWORD $0x14000005aa1303e4
DWORD $0xaa0403f3aa1303e0
DWORD $0xaa1303e497ffc9ff
DWORD $0xf90000942a1f03e0
DWORD $0xa94357f6a9444ff4
DWORD $0xa94167fea9425ff8
	ADD $80, RSP
WORD $0xd65f03c0
	SUB $80, RSP
WORD $0x7102d11f
DWORD $0x7104391f540000a0
DWORD $0x5280002854fffe81
DWORD $0x5280004817ffffd6
WORD $0x17ffffd4
	ADD $80, RSP
	// 56368: rtpw_extend_ntp_56
DWORD $0xd2ffe008cb000029
DWORD $0x9240dd29d2e0100b
DWORD $0xeb0b013f8b00012a
DWORD $0x9a8a81008b080148
WORD $0xd65f03c0
	// 56404: rtpw_extend_send_time
WORD $0xd372c429
DWORD $0xd2c0040bb25a67e8
DWORD $0x92409529cb000129
DWORD $0xeb0b013f8b00012a
DWORD $0x9a8a81008b080148
WORD $0xd65f03c0
	// 56444: rtpw_extend_u15
WORD $0x4b000029
DWORD $0x928fffe89272000a
DWORD $0xf140113f92403929
DWORD $0x8b00012afa400940
DWORD $0xf140113f9a8803e8
DWORD $0x9a8831408b0a0108
WORD $0xd65f03c0
	// 56492: rtpw_extend_u16
WORD $0x4b000029
DWORD $0x13003d2a929fffe8
DWORD $0x3140215f8b29200b
DWORD $0xfa4009409271000a
DWORD $0x7211013f9a8803e8
DWORD $0x9a8801608b0b0108
WORD $0xd65f03c0
	// 56540: rtpw_extend_u32
WORD $0xaa0003e8
DWORD $0x8b0900006b080029
DWORD $0xd65f03c054000044
DWORD $0x6b0a013f52b0000a
DWORD $0xb2607fe83a410904
DWORD $0x8b0001009a88c3e8
WORD $0xd65f03c0
	// 56588: rtpw_extend_u8
WORD $0x4b000029
DWORD $0x13001d2a92801fe8
DWORD $0x3102015f8b29000b
DWORD $0xfa4009409279000a
DWORD $0x7219013f9a8803e8
DWORD $0x9a8801608b0b0108
WORD $0xd65f03c0
	// 56636: rtpw_has_structure
WORD $0xf100103f
DWORD $0xf100001f54000123
DWORD $0x9a9f010852820008
DWORD $0x39c00d088b080008
DWORD $0x1a9f57e07100011f
DWORD $0x2a1f03e0d65f03c0
WORD $0xd65f03c0
	// 56684: rtpw_id_of
WORD $0x72001c28
DWORD $0x540001e02a1f03e9
DWORD $0x7100515f13001c2a
DWORD $0xaa1f03e95400018c
DWORD $0x3869694b9100040a
DWORD $0x540000c06b08017f
DWORD $0xf103fd3f91000529
DWORD $0x12001fe054ffff61
DWORD $0x11000529d65f03c0
DWORD $0xd65f03c012001d20
	// 56760: rtpw_is_rtcp
DWORD $0x540001a3f100083f
DWORD $0x52820008f100001f
DWORD $0x8b0800089a9f0108
DWORD $0x3940050839c00109
DWORD $0x121b09083101013f
DWORD $0x7a49b10052801809
DWORD $0xd65f03c01a9f17e0
DWORD $0xd65f03c02a1f03e0
	// 56824: rtpw_is_stream_id
DWORD $0xf103f91fd1000428
DWORD $0xf100001f54000248
DWORD $0x9a9f010852820008
DWORD $0xf100003f8b080008
DWORD $0xb40001411a9f17e0
DWORD $0xd100042138401509
DWORD $0x7100295f5100c12a
DWORD $0x121a792954ffff23
DWORD $0x7100693f51010529
DWORD $0xd65f03c054fffea3
DWORD $0xd65f03c02a1f03e0
	// 56912: rtpw_is_token
DWORD $0xf103f91fd1000428
DWORD $0xf100001f54000488
DWORD $0x9a9f010852820008
DWORD $0x140000038b080008
DWORD $0xb40003e1d1000421
DWORD $0x7100853f38401509
DWORD $0x7100bd3f54ffff80
DWORD $0x71008d3f540001e8
DWORD $0x7100a13f540002c3
DWORD $0x7100a93f54fffec3
DWORD $0x7100b13f54000243
DWORD $0x7100bd3f54fffe43
DWORD $0x540001c02a1f03e0
DWORD $0x54fffda17100b13f
DWORD $0x7100e93f1400000b
DWORD $0x7101053f54fffd43
DWORD $0x71016d3f540000c3
DWORD $0x5101792954fffcc3
DWORD $0x54fffc697100813f
DWORD $0xd65f03c02a1f03e0
DWORD $0xd65f03c052800020
	// 57080: rtpw_last_element
WORD $0xf81b03fe
	SUB $80, RSP
DWORD $0xa9025ff8f9000bfe
DWORD $0xa9044ff4a90357f6
DWORD $0xf100001f52820009
DWORD $0x9a9f012912001c48
DWORD $0xaa0103f4aa0403f3
DWORD $0x12001c757100051f
DWORD $0x540005808b090000
DWORD $0x54000d817100091f
DWORD $0x2a1f03f8b4000c74
DWORD $0xaa1f03f7aa1f03f6
DWORD $0x39400008aa1403e1
DWORD $0xf100083f35000248
DWORD $0xf100043f54000140
DWORD $0xf1000c3f54000920
DWORD $0x3940040854000108
DWORD $0x39400808350000c8
DWORD $0x1400004235000088
DWORD $0x3400080839400408
DWORD $0x91000400d1000421
DWORD $0xb400078197ffca74
DWORD $0x54000743f100083f
DWORD $0x9100090939400408
DWORD $0x540006c3eb090021
DWORD $0x8b0900003940000a
DWORD $0x540000606b15015f
DWORD $0x14000030b5fffc61
DWORD $0x52800038cb010296
DWORD $0xb5fffbc1cb0802d7
DWORD $0xb40007541400002d
DWORD $0xaa1f03f62a1f03f8
DWORD $0xaa1403e1aa1f03f7
DWORD $0x3500026839400008
DWORD $0x54000140f100083f
DWORD $0x54000400f100043f
DWORD $0x54000108f1000c3f
DWORD $0x350000c839400408
DWORD $0x3500008839400808
DWORD $0x3940040814000019
DWORD $0xd1000421340002e8
DWORD $0x97ffca4b91000400
DWORD $0x39400008b4000261
DWORD $0x540002087103bd1f
DWORD $0x1100092912000d09
DWORD $0x54000183eb090021
DWORD $0x8b0900006b4812bf
DWORD $0xb5fffc6154000060
DWORD $0xcb01029614000007
DWORD $0xcb0902c852800038
DWORD $0xb5fffba191000517
DWORD $0x7100071f14000003
DWORD $0x2a1f03e0540001e1
DWORD $0xf9000a76cb1702c8
DWORD $0x39006275a9002277
DWORD $0xb9001e7fb801927f
DWORD $0xa94357f6a9444ff4
DWORD $0xf9400bfea9425ff8
	ADD $80, RSP
WORD $0xd65f03c0
	SUB $80, RSP
WORD $0x52800160
DWORD $0xa94357f6a9444ff4
DWORD $0xf9400bfea9425ff8
	ADD $80, RSP
WORD $0xd65f03c0
	SUB $80, RSP
WORD $0x52800120
DWORD $0xa94357f6a9444ff4
DWORD $0xf9400bfea9425ff8
	ADD $80, RSP
WORD $0xd65f03c0
	// 57608: rtpw_map_set
DWORD $0xaa0003e813001c49
DWORD $0x7100513f52800120
DWORD $0x72001c3f5400010c
DWORD $0x72001c5f540000c0
DWORD $0x2a1f03e054000080
DWORD $0x3829690292401c29
WORD $0xd65f03c0
	// 57660: rtpw_map_standard
	MOVD $rtp_wire_constants<>+8(SB), R8
WORD $0xb800501f
WORD $0xfd400100
	MOVD $rtp_wire_constants<>+16(SB), R8
WORD $0x3900241f
DWORD $0x52800188fd400101
DWORD $0xbd0000007901fc1f
DWORD $0xbc00a0016f00e400
DWORD $0x3c80e00039001008
DWORD $0x3c82e0003c81e000
DWORD $0x3c84e0003c83e000
DWORD $0x3c86e0003c85e000
DWORD $0x3c88e0003c87e000
DWORD $0x3c8ae0003c89e000
DWORD $0x3c8ce0003c8be000
DWORD $0x3c8ee0003c8de000
WORD $0xd65f03c0
	// 57780: rtpw_new_ids_between
WORD $0x6f00e400
DWORD $0xad000040aa1f03e8
DWORD $0xad020040ad010040
DWORD $0xad040040ad030040
DWORD $0xad060040ad050040
DWORD $0xad411000ad070040
DWORD $0xad4284073dc01003
DWORD $0xad4640063dc02002
DWORD $0x4ea01c603dc03811
DWORD $0x4ea11c41ad449403
DWORD $0x4ea41ce43dc01c02
DWORD $0x3dc02c064ea51cc5
DWORD $0x4ea21c614ea01c20
DWORD $0x4ea51e234ea61e02
DWORD $0x4ea41c213dc03c05
DWORD $0x4ea01c604ea21ca2
DWORD $0x4ea11c413dc00403
DWORD $0x4ea11c004ea31c00
DWORD $0xea11c006e004001
DWORD $0xaa4981299e660009
DWORD $0x2a0a0129d350fd2a
DWORD $0x2a4921295280020a
DWORD $0x5280200972001d3f
DWORD $0x9100042a9a890149
DWORD $0x1100058b14000006
DWORD $0x910005083828684b
DWORD $0x54000220eb09011f
DWORD $0x38eb680b92401d0b
DWORD $0x12001d6b7100517f
DWORD $0x7a401964fa40d904
DWORD $0xaa1f03ec54fffee0
DWORD $0x6b0b01bf386c694d
DWORD $0x9100058c54fffe20
DWORD $0x54ffff61f103fd9f
DWORD $0x17ffffed2a1f03eb
WORD $0xd65f03c0
	// 58060: rtpw_new_ids_from_retransmission
WORD $0xd104c3f0
WORD $0xf900021e
	SUB $304, RSP
DWORD $0xa9124ff4a9117bfd
WORD $0xad411000
	MOVD $rtp_wire_constants<>+144(SB), R8
WORD $0x3dc01003
DWORD $0xad464006ad428407
	MOVD $rtp_wire_constants<>+208(SB), R9
DWORD $0xad4494034ea01c60
DWORD $0x4ea41ce43dc02002
	MOVD $rtp_wire_constants<>+320(SB), R10
DWORD $0xaa0103f33dc03811
DWORD $0x4ea11c41aa0003f4
DWORD $0x3dc01c024ea51cc5
DWORD $0x4ea01c203dc02c06
DWORD $0x4ea61e024ea21c61
DWORD $0x3dc03c054ea51e23
DWORD $0x4ea21ca24ea41c21
DWORD $0x4ea01c603dc00104
WORD $0x3dc00403
	MOVD $rtp_wire_constants<>+160(SB), R8
WORD $0x4ea11c41
WORD $0x3dc00102
	MOVD $rtp_wire_constants<>+176(SB), R8
WORD $0x4ea31c00
WORD $0x3dc00123
	MOVD $rtp_wire_constants<>+240(SB), R9
WORD $0xad008be4
DWORD $0x3dc001014ea11c00
	MOVD $rtp_wire_constants<>+192(SB), R8
WORD $0x3dc00102
	MOVD $rtp_wire_constants<>+224(SB), R8
WORD $0x6e004004
DWORD $0x3dc00101ad018be1
	MOVD $rtp_wire_constants<>+256(SB), R8
WORD $0x3dc00122
	MOVD $rtp_wire_constants<>+272(SB), R9
WORD $0xad0287e3
WORD $0x3dc00101
	MOVD $rtp_wire_constants<>+288(SB), R8
WORD $0x3dc00123
	MOVD $rtp_wire_constants<>+304(SB), R9
DWORD $0xad0387e20ea41c00
DWORD $0xad0487e33dc00101
DWORD $0x9e6600083dc00141
WORD $0x3dc00120
	MOVD $rtp_wire_constants<>+336(SB), R9
WORD $0x3dc00122
	MOVD $rtp_wire_constants<>+352(SB), R9
DWORD $0x3dc00120ad0587e0
	MOVD $rtp_wire_constants<>+368(SB), R9
DWORD $0x3dc00123aa488108
	MOVD $rtp_wire_constants<>+384(SB), R9
DWORD $0x3dc00120ad0683e2
DWORD $0xad0783e3d350fd0a
DWORD $0x2a4821082a0a0108
DWORD $0x5400006072001d1f
DWORD $0x1400000f528001e1
WORD $0x3dc00280
	MOVD $rtp_wire_constants<>+128(SB), R8
WORD $0x3dc00101
DWORD $0x4e601c204e209800
DWORD $0x4e0138006e004001
DWORD $0x1e2600084e71b800
DWORD $0x92403d0832000108
DWORD $0xd2401501dac01108
DWORD $0x52800142aa1403e0
DWORD $0x97ffc94952800123
DWORD $0x7100051f12001c08
DWORD $0x4f00e54254001661
DWORD $0x3cc112873cc01286
DWORD $0x3cc212924f00e561
DWORD $0x3cc213f13cc113f0
DWORD $0x3cc313f44e010c20
DWORD $0x3cc312843cc81297
DWORD $0x6e228cd3910043e8
DWORD $0x6e228e566e228cf5
DWORD $0x6e218ce76e218cc6
DWORD $0x6e228ef96e218e52
DWORD $0x3cc413e56e228c98
DWORD $0x4e751e314e731e10
DWORD $0x4e761e943cc91293
DWORD $0x6e218c843cca1295
DWORD $0x4e781ca56e228e7a
DWORD $0x6e701c063ccb1296
DWORD $0x6e711c073cc81110
DWORD $0x6e741c123cc91111
DWORD $0x4e791e106e218ef4
DWORD $0x3cc412836e218e73
DWORD $0x6ea41c054e7a1e31
DWORD $0x3c8113e63cc51284
DWORD $0x6e218eb56e228ea6
DWORD $0x3cca11073c8213e7
DWORD $0x3c8313f26eb41c10
DWORD $0x6e218ed66e228ed2
DWORD $0x4e661ce63ccb1114
DWORD $0x6eb31c116e228c77
DWORD $0x6e228c933cc513e7
DWORD $0x3c8811104e721e92
DWORD $0x3c8413e54eb61ed0
DWORD $0x4e771ce56e661c15
DWORD $0x3cc613f43ccc1287
DWORD $0x3c891111fc4e1297
DWORD $0x6e721c103ccd1291
DWORD $0x4e731e866e228cf2
DWORD $0x3ccc11140f00e553
DWORD $0x3c8a11156e228e36
DWORD $0x6e218ce73ccd1115
DWORD $0x4e721e926e218e31
DWORD $0xfc4e92980f00e574
DWORD $0x2e338ef94e761eb5
DWORD $0xfc4e1116fc4f129a
DWORD $0x3c8b11102e338f1b
DWORD $0x2e338f536e721c07
DWORD $0x2e348ef7fc4e9112
DWORD $0x2e348f156e751c11
DWORD $0xe791ed62e348f54
DWORD $0xe7b1e52fc4f1119
DWORD $0x6e218c633943e689
DWORD $0xeb71ef00e731f33
DWORD $0xeb41e873c8c1107
DWORD $0x6e218c843c8d1111
DWORD $0x7100293f2eb51c12
DWORD $0x2e761c103943ea8a
DWORD $0x3cc612986ea31c05
DWORD $0x4ea41c832e731c07
DWORD $0x6e228f153943f68b
DWORD $0xfc0e91123cc713f3
DWORD $0x6e661c03fc0e1110
DWORD $0xfc0f11073cc71286
DWORD $0x3cc813e7394427e8
DWORD $0x4e751e646e228cc2
DWORD $0x1a8803e86e218f10
DWORD $0x39442be971002d3f
DWORD $0x7100295f1a880028
DWORD $0x1a8903e96e218cc1
DWORD $0x3943ee8a71002d5f
DWORD $0x1a890028390427e8
DWORD $0x39042be839442fe9
DWORD $0x3943f2887100295f
DWORD $0x71002d5f1a8903e9
DWORD $0x1a890029394433ea
DWORD $0x4e621ce27100291f
DWORD $0x71002d1f1a8a03ea
DWORD $0x39042fe9394437e8
DWORD $0x7100297f1a8a0029
DWORD $0x71002d7f1a8803e8
DWORD $0x1a880028390433e9
DWORD $0x3943fe8a3943fa89
DWORD $0x39443be8390437e8
DWORD $0x7100293f6eb01c04
DWORD $0x3c8513e56ee11c40
DWORD $0x71002d3f1a8803e8
DWORD $0x1a88002839443fe9
DWORD $0x3c8613e37100295f
DWORD $0x71002d5f1a8903e9
DWORD $0x1a89002839043be8
DWORD $0x3c8813e03c8713e4
DWORD $0xad4687e039043fe8
DWORD $0xad060660a9517bfd
DWORD $0xad070a60ad478be0
DWORD $0xad040261ad4483e1
DWORD $0xad050262ad4583e2
DWORD $0xad020261ad4283e1
DWORD $0xad030262ad4383e2
DWORD $0xad000261ad4083e1
DWORD $0xad010262ad4183e2
WORD $0xa9524ff4
	ADD $304, RSP
WORD $0xd65f03c0
	// 59332: rtpw_new_ids_to_retransmission
WORD $0xd104c3f0
WORD $0xf900021e
	SUB $304, RSP
DWORD $0xa9124ff4a9117bfd
WORD $0xad411000
	MOVD $rtp_wire_constants<>+144(SB), R8
WORD $0x3dc01003
DWORD $0xad464006ad428407
	MOVD $rtp_wire_constants<>+208(SB), R9
DWORD $0xad4494034ea01c60
DWORD $0x4ea41ce43dc02002
	MOVD $rtp_wire_constants<>+320(SB), R10
DWORD $0xaa0103f33dc03811
DWORD $0x4ea11c41aa0003f4
DWORD $0x3dc01c024ea51cc5
DWORD $0x4ea01c203dc02c06
DWORD $0x4ea61e024ea21c61
DWORD $0x3dc03c054ea51e23
DWORD $0x4ea21ca24ea41c21
DWORD $0x4ea01c603dc00104
WORD $0x3dc00403
	MOVD $rtp_wire_constants<>+160(SB), R8
WORD $0x4ea11c41
WORD $0x3dc00102
	MOVD $rtp_wire_constants<>+176(SB), R8
WORD $0x4ea31c00
WORD $0x3dc00123
	MOVD $rtp_wire_constants<>+240(SB), R9
WORD $0xad008be4
DWORD $0x3dc001014ea11c00
	MOVD $rtp_wire_constants<>+192(SB), R8
WORD $0x3dc00102
	MOVD $rtp_wire_constants<>+224(SB), R8
WORD $0x6e004004
DWORD $0x3dc00101ad018be1
	MOVD $rtp_wire_constants<>+256(SB), R8
WORD $0x3dc00122
	MOVD $rtp_wire_constants<>+272(SB), R9
WORD $0xad0287e3
WORD $0x3dc00101
	MOVD $rtp_wire_constants<>+288(SB), R8
WORD $0x3dc00123
	MOVD $rtp_wire_constants<>+304(SB), R9
DWORD $0xad0387e20ea41c00
DWORD $0xad0487e33dc00101
DWORD $0x9e6600083dc00141
WORD $0x3dc00120
	MOVD $rtp_wire_constants<>+336(SB), R9
WORD $0x3dc00122
	MOVD $rtp_wire_constants<>+352(SB), R9
DWORD $0x3dc00120ad0587e0
	MOVD $rtp_wire_constants<>+368(SB), R9
DWORD $0x3dc00123aa488108
	MOVD $rtp_wire_constants<>+384(SB), R9
DWORD $0x3dc00120ad0683e2
DWORD $0xad0783e3d350fd0a
DWORD $0x2a4821082a0a0108
DWORD $0x5400006072001d1f
DWORD $0x1400000f528001e1
WORD $0x3dc00280
	MOVD $rtp_wire_constants<>+128(SB), R8
WORD $0x3dc00101
DWORD $0x4e601c204e209800
DWORD $0x4e0138006e004001
DWORD $0x1e2600084e71b800
DWORD $0x92403d0832000108
DWORD $0xd2401501dac01108
DWORD $0x52800122aa1403e0
DWORD $0x97ffc80b52800143
DWORD $0x7100051f12001c08
DWORD $0x4f00e56254001661
DWORD $0x3cc112873cc01286
DWORD $0x3cc212924f00e541
DWORD $0x3cc213f13cc113f0
DWORD $0x3cc313f44e010c20
DWORD $0x3cc312843cc81297
DWORD $0x6e228cd3910043e8
DWORD $0x6e228e566e228cf5
DWORD $0x6e218ce76e218cc6
DWORD $0x6e228ef96e218e52
DWORD $0x3cc413e56e228c98
DWORD $0x4e751e314e731e10
DWORD $0x4e761e943cc91293
DWORD $0x6e218c843cca1295
DWORD $0x4e781ca56e228e7a
DWORD $0x6e701c063ccb1296
DWORD $0x6e711c073cc81110
DWORD $0x6e741c123cc91111
DWORD $0x4e791e106e218ef4
DWORD $0x3cc412836e218e73
DWORD $0x6ea41c054e7a1e31
DWORD $0x3c8113e63cc51284
DWORD $0x6e218eb56e228ea6
DWORD $0x3cca11073c8213e7
DWORD $0x3c8313f26eb41c10
DWORD $0x6e218ed66e228ed2
DWORD $0x4e661ce63ccb1114
DWORD $0x6eb31c116e228c77
DWORD $0x6e228c933cc513e7
DWORD $0x3c8811104e721e92
DWORD $0x3c8413e54eb61ed0
DWORD $0x4e771ce56e661c15
DWORD $0x3cc613f43ccc1287
DWORD $0x3c891111fc4e1297
DWORD $0x6e721c103ccd1291
DWORD $0x4e731e866e228cf2
DWORD $0x3ccc11140f00e573
DWORD $0x3c8a11156e228e36
DWORD $0x6e218ce73ccd1115
DWORD $0x4e721e926e218e31
DWORD $0xfc4e92980f00e554
DWORD $0x2e338ef94e761eb5
DWORD $0xfc4e1116fc4f129a
DWORD $0x3c8b11102e338f1b
DWORD $0x2e338f536e721c07
DWORD $0x2e348ef7fc4e9112
DWORD $0x2e348f156e751c11
DWORD $0xe791ed62e348f54
DWORD $0xe7b1e52fc4f1119
DWORD $0x6e218c633943e689
DWORD $0xeb71ef00e731f33
DWORD $0xeb41e873c8c1107
DWORD $0x6e218c843c8d1111
DWORD $0x71002d3f2eb51c12
DWORD $0x2e761c103943ea8a
DWORD $0x3cc612986ea31c05
DWORD $0x4ea41c832e731c07
DWORD $0x6e228f153943f68b
DWORD $0xfc0e91123cc713f3
DWORD $0x6e661c03fc0e1110
DWORD $0xfc0f11073cc71286
DWORD $0x3cc813e7394427e8
DWORD $0x4e751e646e228cc2
DWORD $0x1a8803e86e218f10
DWORD $0x39442be97100293f
DWORD $0x71002d5f1a880028
DWORD $0x1a8903e96e218cc1
DWORD $0x3943ee8a7100295f
DWORD $0x1a890028390427e8
DWORD $0x39042be839442fe9
DWORD $0x3943f28871002d5f
DWORD $0x7100295f1a8903e9
DWORD $0x1a890029394433ea
DWORD $0x4e621ce271002d1f
DWORD $0x7100291f1a8a03ea
DWORD $0x39042fe9394437e8
DWORD $0x71002d7f1a8a0029
DWORD $0x7100297f1a8803e8
DWORD $0x1a880028390433e9
DWORD $0x3943fe8a3943fa89
DWORD $0x39443be8390437e8
DWORD $0x71002d3f6eb01c04
DWORD $0x3c8513e56ee11c40
DWORD $0x7100293f1a8803e8
DWORD $0x1a88002839443fe9
DWORD $0x3c8613e371002d5f
DWORD $0x7100295f1a8903e9
DWORD $0x1a89002839043be8
DWORD $0x3c8813e03c8713e4
DWORD $0xad4687e039043fe8
DWORD $0xad060660a9517bfd
DWORD $0xad070a60ad478be0
DWORD $0xad040261ad4483e1
DWORD $0xad050262ad4583e2
DWORD $0xad020261ad4283e1
DWORD $0xad030262ad4383e2
DWORD $0xad000261ad4083e1
DWORD $0xad010262ad4183e2
WORD $0xa9524ff4
	ADD $304, RSP
WORD $0xd65f03c0
	// 60604: rtpw_next_element
WORD $0xf81d03fe
	SUB $48, RSP
WORD $0xa90157fe
DWORD $0x52820009a9024ff4
DWORD $0x12001c48f100001f
DWORD $0x7100051f9a9f0129
DWORD $0x7100091f54000180
DWORD $0x2a1f03f354000081
DWORD $0x54000142eb030028
DWORD $0xa9424ff452800120
WORD $0xa94157fe
	ADD $48, RSP
WORD $0xd65f03c0
	SUB $48, RSP
DWORD $0xeb03002852800033
DWORD $0x540005a054ffff03
DWORD $0x8b0301208b090009
DWORD $0x3400018939400009
DWORD $0x3940000934000453
DWORD $0x540004a87103bd3f
DWORD $0x9100094a92400d2a
DWORD $0x54000423eb0a011f
DWORD $0xd100054953047d2b
DWORD $0xf100051f14000025
DWORD $0xf100091f54000380
DWORD $0x3940040954000081
DWORD $0x1400000734000309
DWORD $0x540000a8f1000d1f
DWORD $0x3500006939400409
DWORD $0x3400022939400809
DWORD $0xd1000501aa0103f4
DWORD $0xaa0403f591000400
DWORD $0xb400016197ffc6f2
DWORD $0xaa1503e4aa0103e8
DWORD $0x35fffc13aa1403e1
DWORD $0x540000a3f100091f
DWORD $0x9100092a39400409
DWORD $0x540000e2eb0a011f
DWORD $0xa9424ff452800160
WORD $0xa94157fe
	ADD $48, RSP
WORD $0xd65f03c0
	SUB $48, RSP
DWORD $0xcb0801483940000b
DWORD $0x3900608b2a1f03e0
DWORD $0xb801909f8b010108
DWORD $0xa900a089cb09010a
DWORD $0xb9001c9ff900008a
DWORD $0xa94157fea9424ff4
	ADD $48, RSP
WORD $0xd65f03c0
	// 60960: rtpw_next_elements
WORD $0xf81c03fe
	SUB $64, RSP
DWORD $0xa90257f6a9015ffe
DWORD $0xf100001fa9034ff4
DWORD $0x12001c4952820008
DWORD $0xf100009f9a9f010a
DWORD $0x7100093f9a9f0108
DWORD $0x540007608b0a0013
DWORD $0xaa1f03e07100053f
DWORD $0xeb01007f54000dc1
DWORD $0x54000d68aa1f03e0
DWORD $0x8b040108b4000d45
DWORD $0x91004114aa1f03e0
DWORD $0x54000ca0eb030028
DWORD $0x394001498b03026a
DWORD $0xf100091f35000349
DWORD $0xf100051f54000140
DWORD $0xf1000d1f54000bc0
DWORD $0x3940054954000108
DWORD $0x39400949350000c9
DWORD $0x1400005735000089
DWORD $0x34000aa939400549
DWORD $0xaa0003f5aa0103f6
DWORD $0x91000540d1000501
DWORD $0x97ffc6a3aa0503f7
DWORD $0x39400009b4000a81
DWORD $0xaa1503e0aa0103e8
DWORD $0xaa1603e1aa1703e5
DWORD $0x540008e87103bd3f
DWORD $0x1100094a12000d2a
DWORD $0x54000868eb080148
DWORD $0x8b010103d100054a
DWORD $0xcb0a006853047d29
DWORD $0xa93f8e8a91000400
DWORD $0xeb0000bff81f0288
DWORD $0x9100829439002289
DWORD $0x1400003654fffa41
DWORD $0xaa1f03e0eb01007f
DWORD $0xb400066554000688
DWORD $0xaa1f03e08b040108
DWORD $0xeb03002991004114
DWORD $0x8b030268540005c0
DWORD $0x3500034a3940010a
DWORD $0x54000140f100093f
DWORD $0x540004e0f100053f
DWORD $0x54000108f1000d3f
DWORD $0x350000ca3940050a
DWORD $0x3500008a3940090a
DWORD $0x3940050a14000020
DWORD $0xaa0103f6340003ca
DWORD $0xd1000521aa0003f5
DWORD $0xaa0503f791000500
DWORD $0xb40003a197ffc66c
DWORD $0xaa0003e8aa0103e9
DWORD $0xaa1703e5aa1503e0
DWORD $0xf100093faa1603e1
DWORD $0x3940050a54000203
DWORD $0xeb0901699100094b
DWORD $0x8b01012354000188
DWORD $0x9100040039400108
DWORD $0xa93f8e8acb0a0069
DWORD $0xf81f0289eb0000bf
DWORD $0x9100829439002288
DWORD $0xaa0503e054fffa61
DWORD $0xa94257f6a9434ff4
WORD $0xa9415ffe
	ADD $64, RSP
WORD $0xd65f03c0
	SUB $64, RSP
DWORD $0xa9434ff4aa1503e0
DWORD $0xa9415ffea94257f6
	ADD $64, RSP
WORD $0xd65f03c0
	// 61512: rtpw_pad
DWORD $0x52820008f100001f
DWORD $0xb40002c49a9f0109
WORD $0xf81b03fe
	SUB $80, RSP
DWORD $0xa9025ff8a90167fe
DWORD $0xa9044ff4a90357f6
DWORD $0x3400022812001c68
DWORD $0x54000229f103c09f
DWORD $0xab02028a52801e14
DWORD $0x5400032352800108
DWORD $0xa94357f6a9444ff4
DWORD $0xa94167fea9425ff8
	ADD $80, RSP
WORD $0x2a0803e0
DWORD $0x52800120d65f03c0
WORD $0xd65f03c0
	SUB $80, RSP
DWORD $0x14000023aa1f03f4
DWORD $0x1b04a14a1ac4090a
DWORD $0x7100015fcb0a008b
DWORD $0x8b2841489a8b03ea
DWORD $0xf103c11f52801e0a
DWORD $0xab02028a9a8a3114
DWORD $0x54fffd2252800108
DWORD $0x54fffce8eb01015f
DWORD $0xf10006968b090015
DWORD $0x321b0108394002a8
DWORD $0x540001a0390002a8
DWORD $0x8b0202b7f1000a93
DWORD $0x8b0202a054000120
DWORD $0xaa0203f82a1f03e1
DWORD $0xaa0503f9aa1303e2
DWORD $0xaa1803e294002c38
DWORD $0x38336affaa1903e5
DWORD $0x382269148b1602a8
DWORD $0xf90000b42a1f03e8
DWORD $0xa94357f6a9444ff4
DWORD $0xa94167fea9425ff8
	ADD $80, RSP
WORD $0x2a0803e0
WORD $0xd65f03c0
	// 61804: rtpw_read_dependency_descriptor
WORD $0xf1000c3f
DWORD $0x5280012054000062
DWORD $0xaa0003e8d65f03c0
DWORD $0x528200092f02e6a0
DWORD $0x2a1f03e0f100001f
DWORD $0x8b0901089a9f0129
	MOVD $rtp_wire_constants<>+24(SB), R9
DWORD $0x784011080d400100
DWORD $0xe4038015ac00908
DWORD $0x7900004853107d08
DWORD $0xfd4001206e0a0401
	MOVD $rtp_wire_constants<>+32(SB), R9
DWORD $0x2e6044202f07b7e1
DWORD $0xe211c00fd400121
DWORD $0xbc0020400e001800
WORD $0xd65f03c0
	// 61924: rtpw_read_orientation
WORD $0xf100043f
DWORD $0xaa0003e854000241
DWORD $0xd2a021ca52820009
DWORD $0xf2c0168af100001f
DWORD $0x9a9f01292a1f03e0
DWORD $0x38696908f2e00b4a
DWORD $0x53030d0bd37c0509
DWORD $0x9ac9254953020908
DWORD $0x39000c483900084b
DWORD $0xd65f03c079000049
DWORD $0xd65f03c052800120
	// 62008: rtpw_read_original
DWORD $0x54000163f100083f
DWORD $0x52820009aa0003e8
DWORD $0xf100011f2a1f03e0
DWORD $0x786969089a9f0129
DWORD $0x53107d085ac00908
DWORD $0xd65f03c079000048
DWORD $0xd65f03c052800100
	// 62064: rtpw_read_transport_number
DWORD $0xf100001f52820008
DWORD $0xf100083f9a9f0108
DWORD $0xf100103f540001c3
DWORD $0x540001a08b08000b
DWORD $0x54000121f100083f
DWORD $0x5ac0056b7940016b
DWORD $0x7900004b2a1f03e0
DWORD $0x3900105f7900045f
DWORD $0xd65f03c03900145f
DWORD $0xd65f03c052800120
DWORD $0x3940096939400d68
DWORD $0x331819287940016a
DWORD $0x5ac0054b53077d29
DWORD $0x2a1f03e05280002a
DWORD $0x790004487900004b
DWORD $0x390014493900104a
WORD $0xd65f03c0
	// 62196: rtpw_receiver_accepts
WORD $0x39406008
DWORD $0xf940000834000088
DWORD $0x54000062eb010108
DWORD $0xd65f03c052800020
DWORD $0x540001c8f101fd1f
DWORD $0x2a2803eca940a40a
DWORD $0xd37ff92bf27a011f
DWORD $0x9ac82529b240014a
DWORD $0x9acc216b9ac8254a
DWORD $0x9a8a1128aa0a016a
DWORD $0x1a9f17e0f240011f
DWORD $0x2a1f03e0d65f03c0
WORD $0xd65f03c0
	// 62292: rtpw_receiver_number_of
WORD $0x39406008
DWORD $0x340001a8f9400000
DWORD $0x13003d094b000028
DWORD $0x3140213f8b28200a
DWORD $0xfa40092092710009
DWORD $0x9a8903e9929fffe9
DWORD $0x8b0a01297211011f
DWORD $0xd65f03c09a890140
DWORD $0xd65f03c0b3403c20
	// 62360: rtpw_receiver_standing_of
DWORD $0x3400008839406008
DWORD $0xeb010109f9400008
DWORD $0x2a1f03e054000062
DWORD $0xf101fd3fd65f03c0
DWORD $0xa940a80b54000188
DWORD $0xf27a013f2a2903ed
DWORD $0xb240016bd37ff94c
DWORD $0x9ac9256b9ac9254a
DWORD $0xaa0b018b9acd218c
DWORD $0x3607fe499a8b1149
DWORD $0x9a8833e8eb010108
DWORD $0x52800028f102011f
DWORD $0xd65f03c01a883500
	// 62464: rtpw_reception_record
DWORD $0x4b020068f9400809
DWORD $0xf940040ab4000269
DWORD $0xf940140cb940300b
DWORD $0x9a8a802aeb0a003f
DWORD $0x5a8b556b6b0b010b
DWORD $0xf900040ab100218d
DWORD $0xcb4d118cda9f31ad
DWORD $0xf900140a8b0b018a
DWORD $0xb9003008b1000529
DWORD $0xf9000808da9f3128
DWORD $0xa9000401d65f03c0
DWORD $0xb9003008b1000529
DWORD $0xf9000808da9f3128
WORD $0xd65f03c0
	// 62572: rtpw_reception_report
WORD $0xa941200a
DWORD $0x54000061eb08014d
DWORD $0xd65f03c052800160
DWORD $0xf940100ea940240b
DWORD $0xb1000508cb0b0128
DWORD $0xcb0e0188da9f310c
DWORD $0x540003c9eb0d010f
DWORD $0xd378ddefd378fdee
DWORD $0x528020102a1f03ed
DWORD $0x2a1103ed14000006
DWORD $0x12003e314b110211
DWORD $0x540001a97100063f
DWORD $0x53013e310b0d0211
DWORD $0x9bc87e239b087e22
DWORD $0xfa0301dfeb0201ff
DWORD $0x2a1103f054fffea2
DWORD $0x12003e314b0d0231
DWORD $0x54fffea87100063f
DWORD $0x54000129eb0c0148
DWORD $0x52a0100ef160011f
DWORD $0x4b0803ee9a8e3108
DWORD $0x2a1f03ed14000008
DWORD $0x54ffff28eb0c0148
DWORD $0x12bff00ecb0a0188
DWORD $0x9a8e310eeb0e011f
DWORD $0xf940140aa901b00a
DWORD $0x12103d6b1280000c
DWORD $0x3900002d2a1f03e0
DWORD $0x4b0b0129d344fd4a
DWORD $0x39000c3f7800103f
DWORD $0x2900a42eeb0c015f
DWORD $0xb9000c2a9a8c314a
WORD $0xd65f03c0
	// 62828: rtpw_values_read
WORD $0x52820009
DWORD $0x12001c48f100001f
DWORD $0x7100051f9a9f0129
DWORD $0x540000a0aa0103e2
DWORD $0x540002a17100091f
DWORD $0x1400000252800028
DWORD $0xf81e03fe2a1f03e8
	SUB $32, RSP
WORD $0xf9000bfe
DWORD $0x8b0900016f00e400
DWORD $0x2a0803e3aa0303e0
DWORD $0xad000080f900409f
DWORD $0xad020080ad010080
DWORD $0x97ffc557ad030080
DWORD $0xf9400bfe2a1f03e0
	ADD $32, RSP
WORD $0xd65f03c0
DWORD $0xd65f03c052800120
	// 62952: rtpw_version
DWORD $0x72a0002052802000
WORD $0xd65f03c0
	// 62964: rtpw_wide_receiver_accepts
WORD $0xf100003f
DWORD $0xd100044952820008
DWORD $0xf107fd3f9a9f0108
DWORD $0x39402009540000c8
DWORD $0xf9400009340000e9
DWORD $0x54000061eb030129
DWORD $0xd65f03c02a1f03e0
DWORD $0x5280002054000062
DWORD $0xeb49185fd65f03c0
DWORD $0xf100405f54ffff49
DWORD $0x540000e18b080028
DWORD $0xf8697908d3462469
DWORD $0xf240011f9ac32508
DWORD $0xd65f03c01a9f17e0
DWORD $0x9ac2092ad346fc69
DWORD $0xf86979089b02a549
DWORD $0xf240011f9ac32508
DWORD $0xd65f03c01a9f17e0
	// 63104: rtpw_wide_receiver_number_of
DWORD $0xf940000039402008
DWORD $0x4b000028340001a8
DWORD $0x8b28200a13003d09
DWORD $0x927100093140213f
DWORD $0x929fffe9fa400920
DWORD $0x7211011f9a8903e9
DWORD $0x9a8901408b0a0129
DWORD $0xb3403c20d65f03c0
WORD $0xd65f03c0
	// 63172: rtpw_wide_receiver_start
WORD $0xd370fc29
DWORD $0x52800120b4000069
DWORD $0xd370bc29d65f03c0
DWORD $0x2a1f03e0aa0003e8
DWORD $0xd65f03c0a9007d09
	// 63208: rtpw_write_data_elements
WORD $0xf81903fe
	SUB $112, RSP
DWORD $0xa9026ffef9000bfd
DWORD $0xa9045ff8a90367fa
DWORD $0xa9064ff4a90557f6
DWORD $0x5282000af100003f
DWORD $0x9a9f014912001c68
DWORD $0xaa0603f4f100009f
DWORD $0x9a9f014aaa0203f3
DWORD $0x540001007100051f
DWORD $0x54001a817100091f
DWORD $0x5280002b2a1f03f6
DWORD $0x36f800c839c01008
DWORD $0x2a1f03eb140000ac
DWORD $0x39c0100852800036
DWORD $0xf10030ac37f81508
DWORD $0xd342fd8e9a8c33ec
DWORD $0x3940040db400148e
DWORD $0xb400051339400c0c
DWORD $0x529fffefd10005ce
DWORD $0xeb0f01dfaa1303f0
DWORD $0x8b01012f9a8f31ce
DWORD $0x910041efd37ef5ce
DWORD $0x385f01e236000216
DWORD $0x51000442f84205f1
DWORD $0x7100345fd1000623
DWORD $0xfa5191c0fa4f9862
DWORD $0x9100063154001209
DWORD $0x9a8e33eeeb1101ce
DWORD $0x54fffe81f1000610
DWORD $0x1400001052800036
DWORD $0x340010f1385f01f1
DWORD $0xf103fe3ff84205f1
DWORD $0xeb1101df54001088
DWORD $0x9100063154001049
DWORD $0x9a8e33eeeb1101ce
DWORD $0x54fffea1f1000610
DWORD $0x54000f88eb0e027f
DWORD $0xfd4004002a1f03f6
DWORD $0x710001bf79400c0e
DWORD $0x12800def128009ed
DWORD $0x1a8d01ed8b0a008b
DWORD $0x12800fec7100019f
DWORD $0x1a8c03ec2e200800
DWORD $0x2a0801885ac009ce
DWORD $0x9100317753107dcc
DWORD $0x390005683900016d
DWORD $0xfc0041607900056c
DWORD $0x8b090038b40012f3
DWORD $0x8b04014991004179
DWORD $0xaa1f03faaa1f03e8
DWORD $0x9100453b360013d6
DWORD $0xf9000fe991008529
DWORD $0x3940002814000007
DWORD $0x9100075a383d6b28
DWORD $0xeb13035f8b1d02a8
DWORD $0x8b1a170954001100
DWORD $0x3940012a9100051d
DWORD $0x53047d4ba940d521
DWORD $0xb1501492a0a116a
DWORD $0x38286b2951000529
DWORD $0xf10006bfb4000295
DWORD $0xf1000ebf54fffde0
DWORD $0x39400028540000e2
DWORD $0x390001288b1d0329
DWORD $0x3900052839400428
DWORD $0x5400012117ffffe9
DWORD $0x8b1d032939400028
DWORD $0x3940042839000128
DWORD $0x3940082839000528
DWORD $0x17ffffe039000928
DWORD $0xcb0101298b1d0329
DWORD $0x54000222eb15013f
DWORD $0x540000a3f10022bf
DWORD $0xcb0101298b080369
DWORD $0x540001e2f100813f
DWORD $0x8b08012aaa1f03e9
DWORD $0x8b090029cb0902a8
DWORD $0x3840152b8b0a036a
DWORD $0x3800154bf1000508
DWORD $0x17ffffcc54ffffa1
DWORD $0xaa1503e28b1d0320
DWORD $0x17ffffc8940029d8
DWORD $0x54000062f10082bf
DWORD $0x14000010aa1f03e9
DWORD $0x927d06aaf9400fec
DWORD $0x9100402b927beaa9
DWORD $0x8b08018c927beaad
DWORD $0xf10081adad7f8560
DWORD $0xad3f85809100816b
DWORD $0x54ffff619100818c
DWORD $0x54fff6c0eb0902bf
DWORD $0xaa0903ebb4fffc2a
DWORD $0x8b08016c927df2a9
DWORD $0x8b0b002bcb09016a
DWORD $0xfc4085608b0c036c
DWORD $0xfc008580b100214a
DWORD $0xeb0902bf54ffffa1
DWORD $0x17ffffd454fff520
DWORD $0x8b010129b40004b3
DWORD $0x9100412aaa1303eb
DWORD $0x360001f6321e3fe9
DWORD $0xf842054c385f014d
DWORD $0xd100058e510005ad
DWORD $0xfa4f99c2710035bf
DWORD $0x54000449fa4c9120
DWORD $0xeb0c01299100058c
DWORD $0xf100056b9a8933e9
DWORD $0x1400001354fffe81
DWORD $0x5280012c385f014d
DWORD $0xf842054d340002ad
DWORD $0x54000248f103fdbf
DWORD $0x54000209eb0d013f
DWORD $0xeb0c0129910005ac
DWORD $0xf100056b9a8933e9
DWORD $0x5280002b54fffe81
DWORD $0x5280012014000004
DWORD $0x321e3fe91400008b
DWORD $0x1a9f97e9eb09027f
DWORD $0x528001096a09017f
DWORD $0x7100011f1a89052c
DWORD $0x1a8c410052800128
DWORD $0x5280012c14000081
DWORD $0xaa1f03e817fffffb
DWORD $0x927ef52a91000d09
DWORD $0x9100110aeb08014b
DWORD $0xf100097f54000da0
DWORD $0xf100057f54000c80
DWORD $0x382a6aff54000ca1
DWORD $0x140000669100150a
DWORD $0x910089299100493b
DWORD $0x14000007f9000fe9
DWORD $0x383d6b2839400028
DWORD $0x8b1d02a89100075a
DWORD $0x54fffd60eb13035f
DWORD $0x8b08032b8b1a1709
DWORD $0xa940d5219100091d
DWORD $0x3900016a3940012a
DWORD $0xb40002b539000575
DWORD $0x54fffe20f10006bf
DWORD $0x540000e8f1000abf
DWORD $0x8b1d032939400028
DWORD $0x3940042839000128
DWORD $0x17ffffeb39000528
DWORD $0x54000121f1000ebf
DWORD $0x8b1d032939400028
DWORD $0x3940042839000128
DWORD $0x3940082839000528
DWORD $0x17ffffe139000928
DWORD $0xcb0101298b1d0329
DWORD $0x54000222eb15013f
DWORD $0x540000a3f10022bf
DWORD $0xcb0101298b080369
DWORD $0x540001e2f100813f
DWORD $0x8b08012aaa1f03e9
DWORD $0x8b090029cb0902a8
DWORD $0x3840152b8b0a036a
DWORD $0x3800154bf1000508
DWORD $0x17ffffcd54ffffa1
DWORD $0xaa1503e28b1d0320
DWORD $0x17ffffc99400293c
DWORD $0x54000062f10082bf
DWORD $0x14000010aa1f03e9
DWORD $0x927d06aaf9400fec
DWORD $0x9100402b927beaa9
DWORD $0x8b08018c927beaad
DWORD $0xf10081adad7f8560
DWORD $0xad3f85809100816b
DWORD $0x54ffff619100818c
DWORD $0x54fff6e0eb0902bf
DWORD $0xaa0903ebb4fffc2a
DWORD $0x8b08016c927df2a9
DWORD $0x8b0b002bcb09016a
DWORD $0xfc4085608b0c036c
DWORD $0xfc008580b100214a
DWORD $0xeb0902bf54ffffa1
DWORD $0x17ffffd454fff540
DWORD $0x9100190a782a6aff
DWORD $0x8b0a02eb14000005
DWORD $0x3900097f91001d0a
DWORD $0x530a7d287900017f
DWORD $0x5280020b710002df
DWORD $0x53027d29529bd7cc
DWORD $0x1a8b118b2a1f03e0
DWORD $0x9100314833101d0b
DWORD $0xb90002eb33081d2b
DWORD $0xa9464ff4f9000288
DWORD $0xa9445ff8a94557f6
DWORD $0xa9426ffea94367fa
WORD $0xf9400bfd
	ADD $112, RSP
WORD $0xd65f03c0
	// 64724: rtpw_write_dependency_descriptor
WORD $0x39401008
DWORD $0x52820009f100003f
DWORD $0x7100fd1f9a9f0129
DWORD $0x5280012054000069
DWORD $0xf1000c5fd65f03c0
DWORD $0x5280010054000062
DWORD $0xaa0003ead65f03c0
DWORD $0x2a1f03e08b090029
DWORD $0x3940094c39400d4b
DWORD $0x7100017f7940014a
DWORD $0x53087d4d5280080b
DWORD $0x7100019f1a8b03eb
DWORD $0x1a8c03ec5280100c
DWORD $0x2a0c016a3900092a
DWORD $0x2a0801483900052d
DWORD $0x390001285280006a
DWORD $0xd65f03c0f900006a
	// 64856: rtp_proved_write_elements
DWORD $0x52820008f100001f
DWORD $0x9a9f010c12001c8b
DWORD $0x9a9f0109f100005f
DWORD $0x9a9f010af10000bf
DWORD $0xaa0103e87100057f
DWORD $0x7100097f540000c0
DWORD $0x2a1f03eb54000321
DWORD $0x1400000252800021
DWORD $0xf81c03fe2a1f03e1
	SUB $64, RSP
WORD $0xa9034ffe
DWORD $0x8b09004c8b0c000d
DWORD $0x8b09004f9100046e
DWORD $0x540001e0f10005ce
DWORD $0xeb100110f94001f0
DWORD $0xf94005f1540006c3
DWORD $0xeb10023f910081ef
DWORD $0x5280012054ffff09
WORD $0xa9434ffe
	ADD $64, RSP
DWORD $0x52800120d65f03c0
WORD $0xd65f03c0
	SUB $64, RSP
DWORD $0xa9020feca90123ed
DWORD $0x8b020128b40003a3
DWORD $0x91006108aa0303ed
DWORD $0xf85f010e360001eb
DWORD $0xd10005d03842050f
DWORD $0xf1003e1f510005ef
DWORD $0xfa4e90c07a4d99e2
DWORD $0x910005ce54000429
DWORD $0x9a8e33e6eb0e00ce
DWORD $0x54fffe81f10005ad
DWORD $0xf85f010e1400000b
DWORD $0x54000308f103fddf
DWORD $0x340002cf3842050f
DWORD $0xeb0e00c6910009ce
DWORD $0xf10005ad54000263
DWORD $0x8b0a00a054fffee1
DWORD $0xaa0703f3910043e2
DWORD $0xaa0003e897ffca69
DWORD $0xf90002682a1f03e0
WORD $0xa9434ffe
	ADD $64, RSP
WORD $0xd65f03c0
	SUB $64, RSP
DWORD $0xa9434ffe52800120
	ADD $64, RSP
WORD $0xd65f03c0
	SUB $64, RSP
WORD $0xf940058a
DWORD $0x340002cb39406188
DWORD $0x52800120d100054a
DWORD $0x54fff8a8f1003d5f
DWORD $0x7100351f51000508
DWORD $0x8b02012854fff848
DWORD $0xf10004639100e108
DWORD $0xf85f010954000340
DWORD $0xd100052952800120
DWORD $0x54fff728f1003d3f
DWORD $0x5100052938420509
DWORD $0x54fffec97100353f
DWORD $0xf103fd5f17ffffb4
DWORD $0x54fff62852800120
DWORD $0x8b02012834fff608
DWORD $0xf10004639100e108
DWORD $0xf85f010954000100
DWORD $0xf103fd3f52800120
DWORD $0x3842050954fff508
DWORD $0x17ffffa535ffff29
DWORD $0xa9434ffe52800100
	ADD $64, RSP
WORD $0xd65f03c0
	// 65376: rtpw_write_fixed_part
DWORD $0xf100003f39c01008
DWORD $0x9a9f012952820009
DWORD $0xf100305f37f800a8
DWORD $0x52800100540000a2
DWORD $0x52800120d65f03c0
DWORD $0xaa0003ead65f03c0
DWORD $0x8b0900292a1f03e0
DWORD $0xfd4005403940054b
DWORD $0x79400d4d39400d4c
DWORD $0x7100017f12800bea
DWORD $0x2e20080012800feb
DWORD $0x1a8a016a5ac009ad
DWORD $0x53107dac7100019f
DWORD $0x3900012a1a8b03eb
DWORD $0x7900052c2a080168
DWORD $0xfc00412039000528
WORD $0xd65f03c0
	// 65508: rtpw_write_frame_marking
WORD $0xf81d03fe
	SUB $48, RSP
WORD $0xf9000bfe
DWORD $0xf100003fa9024ff4
DWORD $0x3940000952820008
DWORD $0x3940040a3940100b
DWORD $0x39400c0d3940080c
DWORD $0x39007bff9a9f0108
DWORD $0x3400014b79003bff
DWORD $0x71001d7f3940180b
DWORD $0x5280012054000369
DWORD $0xf9400bfea9424ff4
	ADD $48, RSP
WORD $0xd65f03c0
	SUB $48, RSP
WORD $0x710001bf
DWORD $0x528000335280020b
DWORD $0x7100019f1a8b03eb
DWORD $0x1a8c03ec5280040c
DWORD $0x5280080a7100015f
DWORD $0x7100013f1a8a03ea
DWORD $0x1a8903e912800fe9
DWORD $0x2a0b018a2a090149
DWORD $0x390073e92a0a0129
DWORD $0x54000423eb13005f
DWORD $0x3940140e1400002b
DWORD $0x710001df3940200f
DWORD $0x1a8e03ee5280010e
DWORD $0x5280020d710001bf
DWORD $0x7100019f1a8d03ed
DWORD $0x1a8c03ec5280040c
DWORD $0x5280080a7100015f
DWORD $0x7100013f1a8a03ea
DWORD $0x1a8903e952801009
DWORD $0x2a0b01cb2a0d018c
DWORD $0x39401c092a09014a
DWORD $0x2a0b014a2a0c014a
DWORD $0x3940240b340001cf
DWORD $0x52800073390073ea
DWORD $0x39007beb390077e9
DWORD $0x54000182eb13005f
DWORD $0xa9424ff452800100
WORD $0xf9400bfe
	ADD $48, RSP
WORD $0xd65f03c0
	SUB $48, RSP
DWORD $0x528000532a092149
DWORD $0xeb13005f79003be9
DWORD $0x8b08002054fffec3
DWORD $0xaa1303e2910073e1
DWORD $0x9400282daa0303f4
DWORD $0xf90002932a1f03e0
DWORD $0xf9400bfea9424ff4
	ADD $48, RSP
WORD $0xd65f03c0
	// 65896: rtpw_write_mixer_levels
DWORD $0xf100001f52820009
DWORD $0xf100005f9a9f0128
DWORD $0xf1003c3f9a9f0129
DWORD $0x5280012054000069
DWORD $0xeb01007fd65f03c0
DWORD $0x540000e28b080008
DWORD $0x38401509b40001e1
DWORD $0x1101fd29d1000421
DWORD $0x17fffff6363fff89
DWORD $0x8b090049aa1f03ea
DWORD $0x54000100eb0a003f
DWORD $0x9100054a386a690b
DWORD $0x363fff6b1101fd6b
DWORD $0x5280010017ffffed
DWORD $0xaa0103ead65f03c0
DWORD $0x38c0150bb40000e1
DWORD $0x5a8b556b7100017f
DWORD $0x3800152bf100054a
DWORD $0x2a1f03e054ffff61
DWORD $0xd65f03c0f9000081
	// 66056: rtpw_write_ntp_56
DWORD $0x54000062f1001c5f
DWORD $0xd65f03c052800100
DWORD $0xf100003faa0003e8
DWORD $0xd370fc0a52820009
DWORD $0xd368fc0b9a9f0129
DWORD $0x8b090029d360fc0c
DWORD $0x3900012a2a1f03e0
DWORD $0x3900052bd358fd0a
DWORD $0x3900092cd350fd0b
DWORD $0x39001928d348fd0c
DWORD $0x39000d2a528000e8
DWORD $0x3900152c3900112b
DWORD $0xd65f03c0f9000068
	// 66160: rtpw_write_ntp_64
DWORD $0x54000062f100205f
DWORD $0xd65f03c052800100
DWORD $0x52820009f100003f
DWORD $0x2a1f03e0aa0003e8
DWORD $0x5280010a9a9f0129
DWORD $0xf8296828dac00d08
DWORD $0xd65f03c0f900006a
	// 66216: rtpw_write_orientation
DWORD $0xf100003f39400809
DWORD $0x9a9f010852820008
DWORD $0x540001887100053f
DWORD $0x39400c0a7940000b
DWORD $0x7102cd7f52800120
DWORD $0x340001ab5400012c
DWORD $0x540002a17101697f
DWORD $0xb50001425280006b
DWORD $0x5280012014000015
DWORD $0x7102d17fd65f03c0
DWORD $0x7104397f540001e0
DWORD $0x5280002b54000181
DWORD $0x2a090d69b40001a2
DWORD $0x5280008a7100015f
DWORD $0x1a8a03ea2a1f03e0
DWORD $0x2a0a01295280002b
DWORD $0xf900006b38286829
DWORD $0x5280004bd65f03c0
DWORD $0x52800100b5fffea2
WORD $0xd65f03c0
	// 66372: rtpw_write_original
WORD $0xf100083f
DWORD $0x5280010054000062
DWORD $0xaa0003e8d65f03c0
DWORD $0x5ac0084a52820009
DWORD $0x2a1f03e0f100001f
DWORD $0x9a9f012953107d4a
DWORD $0xd65f03c07829690a
	// 66424: rtpw_write_report
DWORD $0x54000062f10060bf
DWORD $0xd65f03c052800100
DWORD $0x5282000b52bff00a
DWORD $0xb9400409fd400400
DWORD $0x4e040c2512bff00c
DWORD $0x2a1f03e039400008
DWORD $0x3160013f4e0c0401
DWORD $0x1a8ac1294e803802
DWORD $0x9a9f016af100009f
WORD $0x6b0c013f
	MOVD $rtp_wire_constants<>+416(SB), R11
WORD $0x4e1c1c41
DWORD $0x3dc001661a8cb129
DWORD $0x6e1404021e270123
	MOVD $rtp_wire_constants<>+400(SB), R9
DWORD $0x53087c6b8b0a008a
DWORD $0x5280030839001148
DWORD $0x4e1c04244e040463
DWORD $0x6ea644426ea64421
DWORD $0x39005d433900594b
DWORD $0x4e1c1c646e002060
DWORD $0x53107c693dc00123
DWORD $0x390055496ea344a3
DWORD $0x6ea644846ea64400
DWORD $0x4e4218000e612863
DWORD $0xe0018624e441821
DWORD $0xbd0001424e011800
DWORD $0xf90000c83c805140
WORD $0xd65f03c0
	// 66644: rtpw_write_send_time
WORD $0x53187c09
DWORD $0x52820008f100003f
DWORD $0x340000699a9f0108
DWORD $0xd65f03c052800120
DWORD $0x54000062f1000c5f
DWORD $0xd65f03c052800100
DWORD $0x8b0800282a0003e9
DWORD $0x53107d2a2a1f03e0
DWORD $0x3900090953087d2b
DWORD $0x3900010a52800069
DWORD $0xf90000693900050b
WORD $0xd65f03c0
	// 66732: rtpw_write_transmission_offset
WORD $0x11600008
DWORD $0x53187d09f100003f
DWORD $0x9a9f010852820008
DWORD $0xf1000c5f350000a9
DWORD $0x52800100540000a2
DWORD $0x52800120d65f03c0
DWORD $0x2a0003e9d65f03c0
DWORD $0x2a1f03e08b080028
DWORD $0x53087d2b53107d2a
DWORD $0x5280006939000909
DWORD $0x3900050b3900010a
DWORD $0xd65f03c0f9000069
	// 66824: rtpw_write_transport_number
DWORD $0xf100003f3940100a
DWORD $0x7940000952820008
DWORD $0x340000ea9a9f0108
DWORD $0x37f8012a79c0040a
DWORD $0x54000122f100105f
DWORD $0xd65f03c052800100
DWORD $0x54000242f100085f
DWORD $0xd65f03c052800100
DWORD $0xd65f03c052800120
DWORD $0x5ac009293211014c
DWORD $0x2a1f03e03940140b
DWORD $0x1a8c014a7100017f
DWORD $0x5ac0094a12003d4a
DWORD $0x5280008933107d2a
DWORD $0xf9000069b828682a
DWORD $0x2a1f03e0d65f03c0
DWORD $0x782868295ac00529
DWORD $0xf900006852800048
WORD $0xd65f03c0
	// 66972: rtpw_write_color_space
WORD $0x39406c09
DWORD $0x52820008f100003f
DWORD $0x71000d3f9a9f0108
DWORD $0x3940700c54000228
DWORD $0x540001c87100099f
DWORD $0x7100095f3940740a
DWORD $0x3940780b54000168
DWORD $0x3940640f3940600d
DWORD $0x3400010b3940680e
DWORD $0xfd4008013dc00000
DWORD $0xe2018214e201800
DWORD $0x5280012014000005
DWORD $0x6f00e400d65f03c0
DWORD $0xf81b03fe6f00e401
	SUB $80, RSP
WORD $0xa902fbff
DWORD $0x531e758ca9044ff4
DWORD $0xa901ffff2a0f21ad
DWORD $0x2a0e41ac2a091189
DWORD $0x2a0961892a0a0129
DWORD $0x3400018bb90017e9
DWORD $0x3c8183e052800393
DWORD $0xeb13005ffc0283e1
DWORD $0x5280010054000142
DWORD $0xf9401bfea9444ff4
	ADD $80, RSP
WORD $0xd65f03c0
	SUB $80, RSP
WORD $0x52800093
DWORD $0x54ffff03eb13005f
DWORD $0x910053e18b080020
DWORD $0xaa0303f4aa1303e2
DWORD $0x2a1f03e0940026e0
DWORD $0xa9444ff4f9000293
WORD $0xf9401bfe
	ADD $80, RSP
WORD $0xd65f03c0
	// 67228: rtpw_wide_receiver_standing_of
WORD $0xf100003f
DWORD $0xd100044a52820008
DWORD $0xf107fd5f9a9f0109
DWORD $0x3940200854000188
DWORD $0xf9400008340001a8
DWORD $0x54000121eb03010a
DWORD $0x9a8833e8eb030108
DWORD $0x52800028eb48185f
DWORD $0xd65f03c01a888500
DWORD $0xd65f03c052800060
DWORD $0x2a1f03e054000062
DWORD $0xeb4a185fd65f03c0
DWORD $0xf100405f54fffe89
DWORD $0x540000618b090029
DWORD $0x14000004d346246a
DWORD $0x9ac2094bd346fc6a
DWORD $0xf86a79299b02a96a
DWORD $0x3707fd299ac32529
WORD $0x17fffff1
	// 67372: rtp_proved_add_element
WORD $0xf81303fe
	SUB $208, RSP
WORD $0xa90703fd
DWORD $0xa90967faa9086ffe
DWORD $0xa90b57f6a90a5ff8
DWORD $0xf100001fa90c4ff4
DWORD $0x12001cc952820008
DWORD $0xf100009f9a9f010e
DWORD $0x7100093f9a9f010d
DWORD $0xf940005854000348
DWORD $0x54001cc3eb18003f
DWORD $0x54001ce072001c7f
DWORD $0x54001d08f103fcbf
DWORD $0x54001d63f100331f
DWORD $0x8b0e0111f9403fe8
DWORD $0x3101051f39c00228
DWORD $0x92401d0f54001d2c
DWORD $0x9100321bd37e0df0
DWORD $0x54003663eb1b0308
DWORD $0x372000ef8b1b0220
DWORD $0x528000282a1f03f4
DWORD $0x140000179100320c
DWORD $0x1400035552800120
DWORD $0x54004ba3f1001108
DWORD $0x39400c0a39400809
DWORD $0xaa0a0929d376d529
DWORD $0x54004ce3eb09011f
DWORD $0x529bd7cc7940000b
DWORD $0x12146d6a8b090369
DWORD $0x1a9f17f47100415f
DWORD $0x6b0c017f1a9f07e8
DWORD $0x540000609100112c
DWORD $0x54004bc17100415f
DWORD $0x12001c6ad10004a9
DWORD $0x7a4f3942f100413f
DWORD $0x1a9f368952801faa
DWORD $0x1a9f052b72001cdf
DWORD $0xb9006feb6a0a00df
DWORD $0x350050e954000060
DWORD $0xf9002fe2b9006fff
DWORD $0xf9001ff0f9000fef
DWORD $0xf90017f1b90057e3
DWORD $0x3720012ff90027e0
DWORD $0xb9406ff48b0c0228
DWORD $0xaa1f03e62a1f03f0
DWORD $0xaa1f03f9aa1f03ea
DWORD $0x140000d6f90033e8
DWORD $0x8b09022a11004209
DWORD $0xf90033eacb090186
DWORD $0xb4001226360009c8
DWORD $0xaa1f03f9f94033e0
DWORD $0xaa0803f3aa0603e8
DWORD $0x5103c12839400009
DWORD $0x540000c23103811f
DWORD $0xaa1303e834000189
DWORD $0x540006497103bd3f
DWORD $0x92400d281400009d
DWORD $0xeb0a02689100090a
DWORD $0xeb0a0268540006e2
DWORD $0x14000096540005e2
DWORD $0x54000140f1000a7f
DWORD $0x54001240f100067f
DWORD $0x54000108f1000e7f
DWORD $0x350000c839400408
DWORD $0x3500008839400808
DWORD $0x394004081400008a
DWORD $0xf90023f934001008
DWORD $0x91000400aa0103f9
DWORD $0xf9001be6d1000661
DWORD $0xaa0c03f5aa1b03fa
DWORD $0xaa0503f42a1403f6
DWORD $0xaa0d03fdaa0e03fb
DWORD $0x97ffc001aa0403f7
DWORD $0xaa0103e8b40060e1
DWORD $0xaa1903e139400009
DWORD $0xf94023f9f9401be6
DWORD $0xaa1d03edaa1703e4
DWORD $0xaa1403e5aa1b03ee
DWORD $0xaa1503ec2a1603f4
DWORD $0x7103bd3faa1a03fb
DWORD $0x12000d2a54000da8
DWORD $0xeb0a01081100094a
DWORD $0x7100413f54000d23
DWORD $0x540000a28b0a0000
DWORD $0xb5fff7e8aa0803f3
DWORD $0x8b0a000014000063
DWORD $0x8b190159aa1f03f3
DWORD $0x1400005eb5fff728
DWORD $0xf94033e0b4000886
DWORD $0xaa0603e8aa1f03f9
DWORD $0xaa0803f3f9000bf8
DWORD $0x39400008f90023f9
DWORD $0xaa1303e8340000a8
DWORD $0x54000542f1000a7f
DWORD $0xf1000a7f14000051
DWORD $0xf100067f54000140
DWORD $0xf1000e7f540009a0
DWORD $0x3940040854000108
DWORD $0x39400808350000c8
DWORD $0x1400004535000088
DWORD $0x3400076839400408
DWORD $0x91000400aa0103f9
DWORD $0xaa0603f8d1000661
DWORD $0xaa0c03f5aa1b03fa
DWORD $0xaa0503f42a1403fb
DWORD $0xaa0d03fdaa0e03f6
DWORD $0x97ffbfbdaa0403f7
DWORD $0xaa0103e8b40056a1
DWORD $0xaa1803e6aa1903e1
DWORD $0xf94023f9f9400bf8
DWORD $0xaa1d03edaa1703e4
DWORD $0xaa1403e5aa1603ee
DWORD $0xaa1503ec2a1b03f4
DWORD $0xf100091faa1a03fb
DWORD $0x3940040954000523
DWORD $0xeb0a01089100092a
DWORD $0x3940000b540004a3
DWORD $0x3500008b8b0a0000
DWORD $0xb5fff948aa0803f3
DWORD $0x8b0903291400001f
DWORD $0x91000939aa1f03f3
DWORD $0x1400001ab5fff868
DWORD $0xaa1f03e6b9406fe8
DWORD $0xaa1f03f9aa1f03ea
DWORD $0x1a9f17f06b14011f
DWORD $0x2a1f03e014000039
DWORD $0x140001dc2a1f03e1
DWORD $0x528000202a1f03e1
DWORD $0x2a1f03e1140001d9
DWORD $0x140001d652800040
DWORD $0x1400000852800053
DWORD $0x528000602a1f03e1
DWORD $0x52800021140001d1
DWORD $0x140001ce52800060
DWORD $0xb9406fe852800073
DWORD $0x6b14011fcb1300ca
DWORD $0x540004401a9f17f0
DWORD $0xf90023e1b4000439
DWORD $0xf94033e2b9406fe1
DWORD $0xaa0a03e32a1403e0
DWORD $0x2a1f03e4aa0403f7
DWORD $0xaa0d03fdaa0503f3
DWORD $0xb90033f4aa0e03f6
DWORD $0xaa0c03f5aa1903f4
DWORD $0xaa1803faaa0a03f9
DWORD $0x97ffc7ffaa0603f8
DWORD $0xaa1403f9aa1903ea
DWORD $0xaa0103e8b94033f4
DWORD $0xaa1803e6f94023e1
DWORD $0xaa1503ecaa1a03f8
DWORD $0xaa1d03edaa1603ee
DWORD $0xaa1303e5aa1703e4
DWORD $0x528000362a1f03f0
DWORD $0x2a1f03f614000004
DWORD $0xaa1903e852800020
DWORD $0x7100053f12001c09
DWORD $0xb9406fe954001461
DWORD $0x7100013f8b0800a8
DWORD $0x9a89053352800029
DWORD $0x91000d088b130108
DWORD $0xeb0800df927ef508
DWORD $0x321e3fe89a8880c9
DWORD $0x540013e8eb08013f
DWORD $0x910011038b090368
DWORD $0x8b08007dcb0c0308
DWORD $0x54001683eb1d003f
DWORD $0xaa0c03e1f9403fe8
DWORD $0xaa0a03fbaa1803e2
DWORD $0xf90023e5aa0603fa
DWORD $0xaa0403f78b0e0100
DWORD $0x8b0d0095f90013ed
DWORD $0x2a1003f8f9001bee
DWORD $0x97ffc8def90033e9
DWORD $0xf94027ecf94033f1
DWORD $0x12181d08531a6628
DWORD $0x790005882a512908
DWORD $0xf94017eb37000178
DWORD $0x1284282ab9406fe9
DWORD $0x7100013f39400168
DWORD $0x1a89014952800209
DWORD $0x79000189321c0108
DWORD $0x9100119839000168
DWORD $0xaa1a03e4b400013a
DWORD $0xeb1b033faa1b03fa
DWORD $0xaa1f03fb54000201
DWORD $0x350002f6aa1a03e3
DWORD $0xf94013ef14000020
DWORD $0x36000948b9406fe8
DWORD $0xb94057eaf94023f4
DWORD $0x3900159452800048
DWORD $0x3900030a72001e89
DWORD $0x14000072540009a1
DWORD $0xaa1803e12a1403e0
DWORD $0xaa1a03e3aa1a03e2
DWORD $0x97ffc9382a1f03e5
DWORD $0xaa0003e3f94033f1
DWORD $0x34000176aa0103fb
DWORD $0x2a1403e0f94033e2
DWORD $0xaa1a03e4aa1803e1
DWORD $0x97ffca19aa1b03e5
DWORD $0xaa0003e3f94033f1
DWORD $0xaa0003faaa0103fb
DWORD $0xa94343eef94023e2
DWORD $0x8b020268aa1503e1
DWORD $0xeb1503498b030115
DWORD $0xb400157b54000182
DWORD $0xaa1b03e8f100237f
DWORD $0xf100813f54001303
DWORD $0x540012a3aa1b03e8
DWORD $0x54000c62f100837f
DWORD $0x14000079aa1f03e9
DWORD $0xf100237fb400141b
DWORD $0x8b030268540000c3
DWORD $0xcb1a01088b020108
DWORD $0x54000aa2f100811f
DWORD $0x8b0801c9aa1f03e8
DWORD $0xcb0803688b10004b
DWORD $0x8b1a01298b13012a
DWORD $0x8b1001298b03014a
DWORD $0xf9403feb8b0b014a
DWORD $0x8b0b012b8b0b014a
DWORD $0x9100416a91004149
DWORD $0xf10005083840154b
DWORD $0x54ffffa13800152b
DWORD $0xb94057e914000086
DWORD $0x53041d28f94023f4
DWORD $0xb1401082a091108
DWORD $0x528000285100050a
DWORD $0x3900030a72001e89
DWORD $0x7100053f540004e0
DWORD $0x394002a954000081
DWORD $0x1400019838286b09
DWORD $0x540002c8f1000a9f
DWORD $0x8b080308394002a9
DWORD $0x394006a939000109
DWORD $0x1400019039000509
DWORD $0x5280006052800041
DWORD $0xf94033e1140000ff
DWORD $0xaa0603e22a1403e0
DWORD $0x528000a897ffc802
DWORD $0x2a1f03e17100001f
DWORD $0x140000f61a881500
DWORD $0x528000e02a1f03e1
DWORD $0xf1000e9f140000f3
DWORD $0x394002a954000121
DWORD $0x390001098b080308
DWORD $0x39000509394006a9
DWORD $0x3900090939400aa9
DWORD $0x8b08030014000177
DWORD $0xeb14013fcb150009
DWORD $0xf100229f540000c2
DWORD $0xf9400ff054001322
DWORD $0x1400015faa1f03e9
DWORD $0xaa1403e2aa1503e1
DWORD $0xf94033f194002470
DWORD $0x2a1f03e114000169
DWORD $0x140000d852800100
DWORD $0x54001462f100837f
DWORD $0x140000b8aa1f03e8
DWORD $0x8b10034b8b1b01ca
DWORD $0x8b1b006d8b0e026c
DWORD $0x8b10004e8b0b014a
DWORD $0xf9403fed8b0d018b
DWORD $0x927beb69927d0768
DWORD $0x8b0a01aa8b0e01ac
DWORD $0x927beb6c8b0b018b
DWORD $0xd100818cad7f8141
DWORD $0xad3f8161d100814a
DWORD $0xb5ffff6cd100816b
DWORD $0xeb09037ff9401bee
DWORD $0xb4002f4854000540
DWORD $0x8b1a01ca8b0e0268
DWORD $0x8b030108f9403fed
DWORD $0x927df36a8b10014b
DWORD $0xcb09016b8b020108
DWORD $0x8b0d016b8b100108
DWORD $0x92400b68cb09010c
DWORD $0x8b0d018c9100216b
DWORD $0x9100218ccb0a0129
DWORD $0xb1002129fc7b6960
DWORD $0xfc3b6980d100216b
DWORD $0x54ffff61d100218c
DWORD $0x54000220eb0a037f
DWORD $0x8b10004b8b0801c9
DWORD $0x8b1a01298b13012a
DWORD $0x8b1001298b03014a
DWORD $0xf9403feb8b0b014a
DWORD $0x8b0b012b8b0b014a
DWORD $0x91003d6a91003d49
DWORD $0xf1000508385ff54b
DWORD $0x54ffffa1381ff52b
DWORD $0x36000148b9406fe8
DWORD $0x8b030308b94057e9
DWORD $0x3900010939000502
DWORD $0x72001c4a52800048
DWORD $0x540001818b030109
DWORD $0xb94057e914000022
DWORD $0x2a09110853041d28
DWORD $0x510005080b020108
DWORD $0x5280002838236b08
DWORD $0x8b03010972001c4a
DWORD $0x7100055f54000300
DWORD $0x3940002854000081
DWORD $0x140000c038296b08
DWORD $0x540000e8f100085f
DWORD $0x8b09030939400028
DWORD $0x3940042839000128
DWORD $0x140000b839000528
DWORD $0x54000121f1000c5f
DWORD $0x8b09030939400028
DWORD $0x3940042839000128
DWORD $0x3940082839000528
DWORD $0x140000ae39000928
DWORD $0xcb0100098b090300
DWORD $0x540000c2eb02013f
DWORD $0x540000e2f100205f
DWORD $0xaa1f03e9f9400ff0
DWORD $0x940023f114000095
DWORD $0x140000a2f94033f1
DWORD $0xf9403fea8b0301c9
DWORD $0x8b080129aa1003eb
DWORD $0x8b1001298b0a0129
DWORD $0x8b17014aa941abf0
DWORD $0x91004129cb0a0129
DWORD $0x54000322f100813f
DWORD $0x14000084aa1f03e9
DWORD $0x5280006152800060
DWORD $0xa9432fe91400004b
DWORD $0xf9400ff0f9403fea
DWORD $0x8b0a0129aa080129
DWORD $0x8b0b01298b1701ea
DWORD $0x91004129cb0a0129
DWORD $0x54000922f100813f
DWORD $0x140000bdaa1f03e9
DWORD $0x5280006052800081
DWORD $0x2a1f03e11400003b
DWORD $0x1400003852800080
DWORD $0x54000862f100805f
DWORD $0x14000056aa1f03e9
DWORD $0x8b0e0268f9403fed
DWORD $0x8b1a01cb8b02006a
DWORD $0x927d07698b0a010a
DWORD $0x8b10016b8b0d020c
DWORD $0x8b0c014a927beb68
DWORD $0x927beb6c8b0d016b
DWORD $0x9100816b9100814a
DWORD $0xf100818cad7f8560
DWORD $0xad3f85409100816b
DWORD $0x54ffff619100814a
DWORD $0x54fff160eb08037f
DWORD $0xaa0803e9b4ffde69
DWORD $0x8b1a01ca8b0e0268
DWORD $0x8b030108f9403fed
DWORD $0x8b09014a8b02012b
DWORD $0x927df3688b0b010b
DWORD $0x8b10014a8b0d020c
DWORD $0x8b0c016bcb080129
DWORD $0x9100416a8b0d014c
DWORD $0xfc4085609100418b
DWORD $0xfc008540b1002129
DWORD $0xeb08037f54ffffa1
DWORD $0x17fffedc54ffee80
DWORD $0x2a1f03e112001c68
DWORD $0x528000a87100391f
DWORD $0xa94c4ff41a888500
DWORD $0xa94b57f6f9403bfd
DWORD $0xa94967faa94a5ff8
WORD $0xa9486ffe
	ADD $208, RSP
WORD $0x17ffcc25
	SUB $208, RSP
DWORD $0x540009c2f100829f
DWORD $0x14000060aa1f03e9
DWORD $0xf94013ec8b0301c9
DWORD $0x8b080129f9403fed
DWORD $0x8b0b012b927d044a
DWORD $0x927b08498b17018c
DWORD $0x9100418b8b0d016d
DWORD $0x927b084d910081ac
DWORD $0xf10081adad7f8560
DWORD $0xad3f85809100816b
DWORD $0x54ffff619100818c
DWORD $0x540004c0eb09005f
DWORD $0xaa0903eab40002aa
DWORD $0x92400e0b8b0301c9
DWORD $0xf94013ec8b0a0129
DWORD $0x8b080129f9403fed
DWORD $0x927d10498b0b092b
DWORD $0xcb09014a8b0a018c
DWORD $0x8b0c02eb8b0d016d
DWORD $0xfc408560910041ac
DWORD $0xfc008580b100214a
DWORD $0xeb09005f54ffffa1
DWORD $0x8b0901ca54000220
DWORD $0x8b03014af9403feb
DWORD $0x92400e0a8b080148
DWORD $0xf94013ea8b0a0908
DWORD $0x8b0b010b8b09014a
DWORD $0x8b0a02e9cb090048
DWORD $0x3840152b9100416a
DWORD $0x3800154bf1000508
DWORD $0x8b15036854ffffa1
DWORD $0x54000bc9eb080229
DWORD $0x5400012df1000533
DWORD $0x540009e0f100093f
DWORD $0x54000920f1000d3f
DWORD $0x54000a01f100113f
DWORD $0x14000054b8286b1f
DWORD $0xf100053fb4000a69
DWORD $0x38286b1f54000961
DWORD $0xf9401be91400004f
DWORD $0x8b1701ecf9403fed
DWORD $0x8b080129927d068a
DWORD $0x927b0a898b0b012b
DWORD $0x9100418b8b0d016d
DWORD $0x927b0a8d910081ac
DWORD $0xf10081adad7f8560
DWORD $0xad3f85809100816b
DWORD $0x54ffff619100818c
DWORD $0x54000480eb09029f
DWORD $0xaa0903eab400028a
DWORD $0x92400e0bf9401be9
DWORD $0x8b0a01ecf9403fed
DWORD $0x8b0801298b0a0129
DWORD $0x927d12898b0b092b
DWORD $0x8b0d016dcb09014a
DWORD $0x910041ac8b0c02eb
DWORD $0xb100214afc408560
DWORD $0x54ffffa1fc008580
DWORD $0x54000200eb09029f
DWORD $0xf9403febf9401bea
DWORD $0x8b0801488b09014a
DWORD $0x8b0a090892400e0a
DWORD $0x8b0b010b8b0901ea
DWORD $0x8b0a02e9cb090288
DWORD $0x3840152b9100416a
DWORD $0x3800154bf1000508
DWORD $0x8b14026854ffffa1
DWORD $0x540002c9eb080229
DWORD $0x5400016df1000533
DWORD $0x540000e0f100093f
DWORD $0x54fff721f1000d3f
DWORD $0x3900091f8b080308
DWORD $0x1400000c7900011f
DWORD $0x1400000a78286b1f
DWORD $0xf100053fb4000129
DWORD $0x8b08031454fff6e0
DWORD $0xaa1303e22a1f03e1
DWORD $0x9400233faa1403e0
DWORD $0xf9402fe838336a9f
DWORD $0xf900011d2a1f03e0
DWORD $0xf9403bfda94c4ff4
DWORD $0xa94a5ff8a94b57f6
DWORD $0xa9486ffea94967fa
	ADD $208, RSP
WORD $0xd65f03c0
	SUB $208, RSP
WORD $0xaa1903e1
DWORD $0xf9400bf8aa1803e6
DWORD $0xaa1703e4f94023f9
DWORD $0xaa1603eeaa1d03ed
DWORD $0x2a1b03f4aa1403e5
DWORD $0xaa1a03fbaa1503ec
DWORD $0x9240136817fffd77
DWORD $0xaa1903e117fffe9e
DWORD $0xf94023f9f9401be6
DWORD $0xaa1d03edaa1703e4
DWORD $0xaa1403e5aa1b03ee
DWORD $0xaa1503ec2a1603f4
DWORD $0x17fffd6aaa1a03fb
	ADD $208, RSP
	// 71092: rtpw_change_form
WORD $0xf81a03fe
	SUB $96, RSP
WORD $0xa9054ffe
DWORD $0x52820009f100001f
DWORD $0xaa0203f312001c68
DWORD $0x7100051f9a9f0129
DWORD $0x7100091f540002e0
DWORD $0x5280002254000421
DWORD $0xa9017ffff9400268
DWORD $0xeb08003ff90013ff
DWORD $0xf100311f540002a3
DWORD $0x8b090009540008c3
DWORD $0x3101055f39c0012a
DWORD $0x92401d4b5400090c
DWORD $0x9100314ad37e0d6a
DWORD $0x54000923eb0a010c
DWORD $0xaa1f03eb3720028b
DWORD $0x2a1f03e214000027
DWORD $0xa9017ffff9400268
DWORD $0xeb08003ff90013ff
DWORD $0xaa1f03e054fffda2
DWORD $0xa9454ffed348ffe1
	ADD $96, RSP
WORD $0x17ffcb36
	SUB $96, RSP
WORD $0x52800120
WORD $0xa9454ffe
	ADD $96, RSP
WORD $0xd65f03c0
	SUB $96, RSP
DWORD $0x540007e3f100118d
DWORD $0x3940098b8b0a012c
DWORD $0xd376d56b39400d8e
DWORD $0xeb0b01bfaa0e096b
DWORD $0x7940018c540007c3
DWORD $0x8b0b014a529bd7cd
DWORD $0x6b0d019f9100114a
DWORD $0x1a9f17ed12146d8c
DWORD $0x5280200c7100419f
DWORD $0x9a9f018c1a9f15ab
DWORD $0xa903abe8aa0b018b
DWORD $0x910043e0d348fd68
DWORD $0x9100a3e1a90287e9
DWORD $0x390127e8390123eb
DWORD $0x79009fffb804a3ff
DWORD $0x394043e897ffcb34
DWORD $0xf9401fe835000348
DWORD $0xf90002682a1f03e0
WORD $0xa9454ffe
	ADD $96, RSP
WORD $0xd65f03c0
	SUB $96, RSP
DWORD $0xd348fc0152800060
WORD $0xa9454ffe
	ADD $96, RSP
WORD $0x17ffcb03
	SUB $96, RSP
DWORD $0xd348fc0152802060
WORD $0xa9454ffe
	ADD $96, RSP
WORD $0x17ffcafd
	SUB $96, RSP
DWORD $0xd348fc0152804060
WORD $0xa9454ffe
	ADD $96, RSP
WORD $0x17ffcaf7
	SUB $96, RSP
DWORD $0x394063e0394067e1
WORD $0xa9454ffe
	ADD $96, RSP
WORD $0x17ffcaf1
	SUB $96, RSP
DWORD $0xd348fc0152806060
WORD $0xa9454ffe
	ADD $96, RSP
WORD $0x17ffcaeb
	SUB $96, RSP
DWORD $0xd348fc0152808060
WORD $0xa9454ffe
	ADD $96, RSP
WORD $0x17ffcae5
	// 71588: rtpw_compact
WORD $0xf81b03fe
	SUB $80, RSP
WORD $0xa90167fe
DWORD $0xa90357f6a9025ff8
DWORD $0xf9400053a9044ff4
DWORD $0x52820008f100001f
DWORD $0xeb13003f9a9f0108
DWORD $0x5280012054000122
DWORD $0xa94357f6a9444ff4
DWORD $0xa94167fea9425ff8
	ADD $80, RSP
WORD $0xd65f03c0
	SUB $80, RSP
WORD $0xf100327f
DWORD $0x5280002054000122
DWORD $0xa94357f6a9444ff4
DWORD $0xa94167fea9425ff8
	ADD $80, RSP
WORD $0xd65f03c0
	SUB $80, RSP
WORD $0x8b080014
DWORD $0x3101051f39c00288
DWORD $0x92401d08540001cc
DWORD $0x91003129d37e0d09
DWORD $0x54000222eb09026a
DWORD $0xa9444ff452800060
DWORD $0xa9425ff8a94357f6
WORD $0xa94167fe
	ADD $80, RSP
WORD $0xd65f03c0
	SUB $80, RSP
DWORD $0xa9444ff452800040
DWORD $0xa9425ff8a94357f6
WORD $0xa94167fe
	ADD $80, RSP
WORD $0xd65f03c0
	SUB $80, RSP
DWORD $0x2a1f03e037200148
DWORD $0xa9444ff4f9000053
DWORD $0xa9425ff8a94357f6
WORD $0xa94167fe
	ADD $80, RSP
WORD $0xd65f03c0
	SUB $80, RSP
DWORD $0x54000122f100114a
DWORD $0xa9444ff452800080
DWORD $0xa9425ff8a94357f6
WORD $0xa94167fe
	ADD $80, RSP
WORD $0xd65f03c0
	SUB $80, RSP
DWORD $0x39400ae88b090297
DWORD $0xd376d50839400eeb
DWORD $0xeb08015faa0b0908
DWORD $0x528000c054000122
DWORD $0xa94357f6a9444ff4
DWORD $0xa94167fea9425ff8
	ADD $80, RSP
WORD $0xd65f03c0
	SUB $80, RSP
WORD $0x794002ea
DWORD $0x6b0b015f529bd7cb
DWORD $0x5400006012146d4a
DWORD $0x54fffb017100415f
DWORD $0x910011367100415f
DWORD $0x1a9f17e0aa0203f8
DWORD $0xaa0803e28b160281
DWORD $0x97ffcc9b8b160115
DWORD $0xaa1403e091000c19
DWORD $0x927ef728aa1503e1
DWORD $0x8b160116aa1303e2
DWORD $0x97ffc5a6aa1603e3
DWORD $0xcb150269531a6728
DWORD $0x8b160133aa1803e2
DWORD $0x790006e8330a4728
WORD $0x17ffffc1
	ADD $80, RSP
	// 72072: rtpw_from_retransmission
DWORD $0x52820008f100001f
DWORD $0x373806249a9f0109
DWORD $0xf900021ed10603f0
	SUB $384, RSP
WORD $0xf9009bfd
DWORD $0xa9155ff8a91467fe
DWORD $0xa9174ff4a91657f6
DWORD $0x910043e83ccc10a0
DWORD $0x390043ff3ccd10a1
DWORD $0x3cce10a03c8c1100
DWORD $0x3dc03ca13c8d1101
DWORD $0x3cc810a03c8e1100
DWORD $0x3cc910a13d8043e1
DWORD $0x3cca10a03c881100
DWORD $0x3ccb10a13c891101
DWORD $0x3cc410a03c8a1100
DWORD $0x3cc510a13c8b1101
DWORD $0x3c8513e0f9400048
DWORD $0x3c8613e13cc610a0
DWORD $0xeb08003f3cc710a1
DWORD $0x3cc010a03c8713e0
DWORD $0x3cc110a13c8813e1
DWORD $0x3cc210a03c8113e0
DWORD $0x3c8313e03c8213e1
DWORD $0x3c8413e03cc310a0
DWORD $0x52800120540000e2
WORD $0x14000015
	ADD $384, RSP
DWORD $0xd65f03c052800120
	SUB $384, RSP
WORD $0xf100311f
DWORD $0x5280002054000062
DWORD $0x8b0900131400000d
DWORD $0x3101053f39c00269
DWORD $0x92401d295400010c
DWORD $0x91003154d37e0d2a
DWORD $0x54000182eb140115
DWORD $0x1400000252800060
DWORD $0xa9574ff452800040
DWORD $0xa95657f6f9409bfd
DWORD $0xa95467fea9555ff8
	ADD $384, RSP
WORD $0xd65f03c0
	SUB $384, RSP
WORD $0x37200169
DWORD $0x2a1f03ea2a1f03eb
DWORD $0xeb14011f36280409
DWORD $0x8b08026854000820
DWORD $0xeb0802b5385ff108
DWORD $0x1400001954fffb23
DWORD $0x54000062f10012ac
DWORD $0x17ffffea52800080
DWORD $0x3940096a8b14026b
DWORD $0xd376d54a39400d6d
DWORD $0xeb0a019faa0d094a
DWORD $0x528000c054000062
DWORD $0x7940016b17ffffe1
DWORD $0x910011b48b0a028d
DWORD $0xcb14011512146d6c
DWORD $0x529bd7cc7100419f
DWORD $0x6b0c017f1a9f17ea
DWORD $0x372ffc491a9f154b
DWORD $0x54000443f1000abf
DWORD $0x910443e078746a79
DWORD $0x2a0403f8910043e1
DWORD $0xaa0203f62a0303f7
DWORD $0xa9127ff4a91153f3
DWORD $0x3904a7ea3904a3eb
DWORD $0x3400030097ffcd0c
DWORD $0x5280100939400268
DWORD $0xf1000aa23940066a
DWORD $0x3300110979000679
DWORD $0x2a18010812190148
DWORD $0x5ac00ae939000269
DWORD $0xb9000a6939000668
DWORD $0x8b14026054000080
DWORD $0x9400214391000801
DWORD $0x2a1f03e08b150288
DWORD $0xf90002c8d1000908
DWORD $0x5280016017ffffb3
DWORD $0x5280020017ffffb1
WORD $0x17ffffaf
	ADD $384, RSP
	// 72688: rtpw_parse
DWORD $0x52820008f100001f
DWORD $0xf100303f9a9f0108
DWORD $0x5280002054000062
DWORD $0x8b080009d65f03c0
DWORD $0x3101051f39c00128
DWORD $0x92401d0a5400010c
DWORD $0x91003168d37e0d4b
DWORD $0x540000a2eb08002c
DWORD $0xd65f03c052800060
DWORD $0xd65f03c052800040
DWORD $0x3720034aaa0303e4
DWORD $0xf90000882a1f03e3
DWORD $0xb940052b6f00e400
DWORD $0xb900088b5ac0096b
DWORD $0x5ac0096bb940092b
DWORD $0xaa0403ebb9000c8b
DWORD $0x3c810d603940012c
DWORD $0x92400d8d3c82c160
DWORD $0x340003cdad008160
DWORD $0x9100312eaa1f03ec
DWORD $0x5ac009efb86c79cf
DWORD $0x9100058cb82c796f
DWORD $0x54ffff61eb0c01bf
DWORD $0xf100118e14000016
DWORD $0x5280008054000062
DWORD $0x8b08012dd65f03c0
DWORD $0x39400daf394009ac
DWORD $0xaa0f098cd376d58c
DWORD $0x540007e2eb0c01df
DWORD $0x794019088b2b4128
DWORD $0x7100413f12146d09
DWORD $0x7a491104529bd7c9
DWORD $0x1a881500528000a8
DWORD $0x2a1f03ecd65f03c0
DWORD $0x7940052b39013c8c
DWORD $0x53107d6b5ac0096b
DWORD $0x3940052b7900988b
DWORD $0x3901388b1200196b
DWORD $0x53077d6b3940052b
DWORD $0x3940012b3901408b
DWORD $0x3901448b5305156b
DWORD $0x5304116b3940012b
DWORD $0x372001aa3901488b
DWORD $0x2a1f03e06f00e400
DWORD $0x3c8c8080f9006c9f
DWORD $0x3c8a80803c8b8080
DWORD $0x3c8880803c898080
DWORD $0x3c8680803c878080
DWORD $0xd65f03c03c858080
WORD $0xf81e03fe
	SUB $32, RSP
DWORD $0x3940012af9000bfe
DWORD $0xaa0203e06f00e400
DWORD $0x9100414ad37e0d4a
DWORD $0xcb0a01083c858c80
DWORD $0xf900409f8b0a0121
DWORD $0xad010080aa0803e2
DWORD $0xad030080ad020080
DWORD $0x97ffbb5b3d800480
DWORD $0xf9400bfe2a1f03e0
	ADD $32, RSP
WORD $0xd65f03c0
DWORD $0x529bd7cd794001ab
DWORD $0x12146d6b6b0d017f
DWORD $0x7100417f1a9f07ed
DWORD $0x4a0301ab1a9f17e3
DWORD $0x528000a03600006b
DWORD $0x8b0c0108d65f03c0
DWORD $0x17ffff9291001108
	// 73224: rtpw_parse_layers
DWORD $0xf100001f52820008
DWORD $0xf100303f9a9f0108
DWORD $0x5280002054000062
DWORD $0x8b08000bd65f03c0
DWORD $0x3101051f39c00168
DWORD $0x92401d0c5400010c
DWORD $0x9100310ad37e0d88
DWORD $0x540000a2eb0a0029
DWORD $0xd65f03c052800060
DWORD $0xd65f03c052800040
DWORD $0x2a1f03e83720034c
DWORD $0x6f00e400f900006a
DWORD $0x5ac00929b9400569
DWORD $0xb9400969b9000869
DWORD $0xb9000c695ac00929
DWORD $0x3940016daa0303e9
DWORD $0x3c82c1203c810d20
DWORD $0xad00812092400dae
DWORD $0xaa1f03ed340003ce
DWORD $0xb86d79f09100316f
DWORD $0xb82d79305ac00a10
DWORD $0xeb0d01df910005ad
DWORD $0x1400001654ffff61
DWORD $0x54000062f100112e
DWORD $0xd65f03c052800080
DWORD $0x394009a98b0a016d
DWORD $0xd376d52939400daf
DWORD $0xeb0901dfaa0f0929
DWORD $0x8b28416854000922
DWORD $0x12146d0979401908
DWORD $0x529bd7c97100413f
DWORD $0x528000a87a491104
DWORD $0xd65f03c01a881500
DWORD $0xf81d03fe2a1f03ed
	SUB $48, RSP
WORD $0xf9000bfe
DWORD $0x39013c6da9024ff4
DWORD $0x5ac0092979400569
DWORD $0x7900986953107d29
DWORD $0x1200192939400569
DWORD $0x3940056939013869
DWORD $0x3901406953077d29
DWORD $0x5305152d39400169
DWORD $0x3901446daa0303e9
DWORD $0x3c858d203940016d
DWORD $0x530411adad008120
DWORD $0xad028120ad018120
DWORD $0x381fa12d3d801d20
DWORD $0x3720006cf900413f
DWORD $0x14000018aa0403e0
DWORD $0xaa0303f43940016c
DWORD $0x2a0803e3aa0203e0
DWORD $0xaa0903e4aa0403e5
DWORD $0xaa0503f3d37e0d8c
DWORD $0xcb0c014a9100418c
DWORD $0xaa0a03e28b0c0161
DWORD $0x3600012097ffcce2
DWORD $0x528000282a1f03e0
DWORD $0xa9424ff439036e88
WORD $0xf9400bfe
	ADD $48, RSP
WORD $0xd65f03c0
	SUB $48, RSP
DWORD $0x2a1f03e1aa1303e0
DWORD $0x9400208752805502
DWORD $0xa9424ff42a1f03e0
WORD $0xf9400bfe
	ADD $48, RSP
DWORD $0x794001a8d65f03c0
DWORD $0x6b0d011f529bd7cd
DWORD $0x1a9f07ed12146d08
DWORD $0x1a9f17e87100411f
DWORD $0x3600006d4a0801ad
DWORD $0xd65f03c0528000a0
DWORD $0x9100112a8b090149
WORD $0x17ffff88
	// 73796: rtpw_parse_many
WORD $0x52820009
DWORD $0x9a9f0128f100001f
DWORD $0x9a9f0129f100007f
DWORD $0xf81a03feb4001684
	SUB $96, RSP
WORD $0xa9016ffe
DWORD $0xa9035ff8a90267fa
DWORD $0xa9054ff4a90457f6
DWORD $0xaa1f03f38b03012a
DWORD $0x8b0900758b080014
DWORD $0x1400000891008156
DWORD $0x3903d2ff52800128
DWORD $0x91000673b900f2e8
DWORD $0xeb04027f9103e2d6
DWORD $0x52801f0854001340
DWORD $0xa9402ae89b085677
DWORD $0xfa4a2120eb080029
DWORD $0xf100315f54fffe83
DWORD $0x540000e28b080298
DWORD $0xf100095f52800028
DWORD $0x54000ea2b900f2e8
DWORD $0x17ffffee3903d2ff
DWORD $0x3101051f39c00308
DWORD $0x92401d085400012c
DWORD $0x91003169d37e0d0b
DWORD $0x540000e2eb09014a
DWORD $0xb900f2e852800068
DWORD $0x5280004814000068
DWORD $0x14000065b900f2e8
DWORD $0x2a1f03e337200328
DWORD $0x6f00e400f9000ae9
DWORD $0x5ac0094ab940070a
DWORD $0xb9400b0ab9001aea
DWORD $0xb9001eea5ac0094a
DWORD $0x3c84c2e03940030a
DWORD $0x92400d4bad0182e0
DWORD $0x3400040b3d800ae0
DWORD $0x9100330caa1f03ea
DWORD $0x5ac009adb86a798d
DWORD $0x9100054ab82a7acd
DWORD $0x54ffff61eb0a017f
DWORD $0xf100114d14000018
DWORD $0x5280008854000082
DWORD $0x14000047b900f2e8
DWORD $0x3940098a8b09030c
DWORD $0xd376d54a39400d8e
DWORD $0xeb0a01bfaa0e094a
DWORD $0x8b2b430854000922
DWORD $0x12146d0979401908
DWORD $0x529bd7c97100413f
DWORD $0x528000a87a491104
DWORD $0xb900f2e81a881508
DWORD $0x2a1f03ea14000036
DWORD $0x6f00e40039017eea
DWORD $0x5ac0094a7940070a
DWORD $0x7900baea53107d4a
DWORD $0x1200194a3940070a
DWORD $0x3940070a39017aea
DWORD $0x390182ea53077d4a
DWORD $0x5305154a3940030a
DWORD $0x3940030a390186ea
DWORD $0x39018aea5304114a
DWORD $0xf90076ff37200168
DWORD $0x3c8c82e03c8d82e0
DWORD $0x3c8a82e03c8b82e0
DWORD $0x3c8882e03c8982e0
DWORD $0x3c8682e03c8782e0
DWORD $0x3940030a14000017
DWORD $0xaa0103f9aa1703e8
DWORD $0xaa0203e03c868d00
DWORD $0xaa0203fad37e0d4a
DWORD $0xaa0803e4aa0403fb
DWORD $0x9100414af900411f
DWORD $0xcb0a0129ad010100
DWORD $0xad0201008b0a0301
DWORD $0xad030100aa0903e2
DWORD $0x97ffba233d800500
DWORD $0xaa1a03e2aa1903e1
DWORD $0xb900f2ffaa1b03e4
DWORD $0x3940070939c00308
DWORD $0x121b09283101011f
DWORD $0x7a49b10052801809
DWORD $0x3903d2e81a9f17e8
DWORD $0x7940018b17ffff73
DWORD $0x6b0c017f529bd7cc
DWORD $0x1a9f07ec12146d6b
DWORD $0x1a9f17e37100417f
DWORD $0x3600008b4a03018b
DWORD $0xb900f2e8528000a8
DWORD $0x8b0a012917ffffec
DWORD $0x17ffff8791001129
DWORD $0xa94457f6a9454ff4
DWORD $0xa94267faa9435ff8
WORD $0xa9416ffe
	ADD $96, RSP
WORD $0xd65f03c0
	// 74540: rtp_proved_put_block
WORD $0xf81703fe
	SUB $144, RSP
WORD $0xf9001bfd
DWORD $0xa90567faa9046ffe
DWORD $0xa90757f6a9065ff8
DWORD $0xf100001fa9084ff4
DWORD $0x5280012952820008
DWORD $0xf100009f9a9f0116
DWORD $0xf24004bf9a9f0115
DWORD $0xf940004854001301
DWORD $0x540012a3eb08003f
DWORD $0xeb0900bf321e3fe9
DWORD $0x528001e954000069
DWORD $0xf100311f14000090
DWORD $0x8b16001454000a43
DWORD $0x3101053f39c00289
DWORD $0x92401d2d54000a0c
DWORD $0x91003329d37e0db9
DWORD $0x540009a3eb09010a
DWORD $0x3720010d8b09029a
DWORD $0x8b05036b9100113b
DWORD $0xeb0a003f8b0a016a
DWORD $0x5280010954000242
DWORD $0xf100114a1400007c
DWORD $0x39400b4b54001083
DWORD $0xd376d56b39400f4c
DWORD $0xeb0b015faa0c096b
DWORD $0x9100113b54001003
DWORD $0xcb09010a8b1b0169
DWORD $0x8b0a016a8b05036b
DWORD $0x54fffe03eb0a003f
DWORD $0xaa0203fda90183ed
DWORD $0x2a0303f78b160000
DWORD $0xaa0903e18b050363
DWORD $0xf9001feaaa0803e2
DWORD $0xf90017e48b150093
DWORD $0x97ffc2eeaa0503f8
DWORD $0x5ac00ae8531a6709
DWORD $0x53107d088b1b0280
DWORD $0x2a582929cb13000a
DWORD $0x79000348eb18015f
DWORD $0x5400012279000749
DWORD $0xaa1d03e8f100231f
DWORD $0xa94227ea54000182
DWORD $0xf9400ff0aa1f03eb
DWORD $0x1400003ef9401ff1
DWORD $0xaa1803e2aa1303e1
DWORD $0xf9401ff194001f0e
DWORD $0x14000044aa1d03e8
DWORD $0xf9401ff1a941abf0
DWORD $0x8b19012b8b0a02c9
DWORD $0x8b0902acf94017e9
DWORD $0x9100416bcb0c016b
DWORD $0x54000122f100817f
DWORD $0x1400002caa1f03eb
DWORD $0x140000482a1f03e1
DWORD $0x1400004652800021
DWORD $0x1400004452800041
DWORD $0x54000062f100831f
DWORD $0x14000012aa1f03eb
DWORD $0x8b0902ae8b1902cd
DWORD $0x8b0a01af927d070c
DWORD $0x910041cd927b330b
DWORD $0x927b330f910081ee
DWORD $0xf10081efad7f85a0
DWORD $0xad3f85c0910081ad
DWORD $0x54ffff61910081ce
DWORD $0x540003c0eb0b031f
DWORD $0xaa0b03ecb400022c
DWORD $0x92400e0d8b0b02cb
DWORD $0x927d3b0b8b0d096d
DWORD $0xcb0b018c8b0c02ae
DWORD $0x8b0e012d8b0a01af
DWORD $0xfc4085a0910041ee
DWORD $0xfc0085c0b100218c
DWORD $0xeb0b031f54ffffa1
DWORD $0x8b0b02cc540001a0
DWORD $0x8b0d098c92400e0d
DWORD $0x8b0d01298b0b02ad
DWORD $0xcb0b030a8b0a018c
DWORD $0x3840152c9100418b
DWORD $0x3800156cf100054a
DWORD $0x3940028a54ffffa1
DWORD $0x321c014a2a1f03e9
DWORD $0xf90001113900028a
DWORD $0x2a0903e0a9484ff4
DWORD $0xf9401bfda94757f6
DWORD $0xa94567faa9465ff8
WORD $0xa9446ffe
	ADD $144, RSP
WORD $0xd65f03c0
	SUB $144, RSP
DWORD $0x1400000252800061
DWORD $0xa9484ff452800081
DWORD $0xa94757f652800060
DWORD $0xa9465ff8f9401bfd
DWORD $0xa9446ffea94567fa
	ADD $144, RSP
WORD $0x17ffc746
	// 75296: rtp_proved_put_element
WORD $0xf81003fe
	SUB $256, RSP
DWORD $0xa90b6ffea90a17fd
DWORD $0xa90d5ff8a90c67fa
DWORD $0xa90f4ff4a90e57f6
DWORD $0x52820008f100001f
DWORD $0x9a9f010d12001cc9
DWORD $0x9a9f010cf100009f
DWORD $0x54000fe87100093f
DWORD $0xeb17003ff9400057
DWORD $0x72001c7f54003663
DWORD $0xf94057e854003680
DWORD $0x54003688f103fd1f
DWORD $0x540038e3f10032ff
DWORD $0x39c001e88b0d000f
DWORD $0x540038cc3101051f
DWORD $0xf9004be892401d08
DWORD $0x91003111d37e0d08
DWORD $0xeb1102e8f90043e8
DWORD $0xf9404be954003963
DWORD $0x37200d298b1101ee
DWORD $0x2a1f03f0f94043e8
DWORD $0xf94057e891003105
DWORD $0xd100050812001c69
DWORD $0x7a4f3922f100411f
DWORD $0x1a9f360852801fa9
DWORD $0x1a9f050a72001cdf
DWORD $0xb9009fea6a0900df
DWORD $0x35005b2854000060
DWORD $0xf9404be8b9009fff
DWORD $0xf90033e28b0d0009
DWORD $0xa90393ecf9003be9
DWORD $0x37200cc8b9007fe3
DWORD $0x2a1f03f68b0c0088
DWORD $0xa90523ffaa1f03fd
DWORD $0xaa1f03f38b0501e8
DWORD $0xb9409fe8f9001be8
DWORD $0xf90027ff2a1f03f5
DWORD $0xb9006fe8f90047ff
DWORD $0x528000282a1f03fa
DWORD $0x12001d08aa1d03e9
DWORD $0x540074a17100051f
DWORD $0x7100011fb9409fe8
DWORD $0x9a88051452800028
DWORD $0x8b090108f94057e8
DWORD $0x8b140108f94047e9
DWORD $0x927ef50891000d08
DWORD $0x9a888138eb08013f
DWORD $0xeb08031f321e3fe8
DWORD $0x8b180228540032c8
DWORD $0xcb0502e891001103
DWORD $0xeb08003f8b080068
DWORD $0xaa0003fb54003a03
DWORD $0xaa0503e18b0d0000
DWORD $0xa902a3edaa1703e2
DWORD $0x97ffc20aaa0e03f9
DWORD $0xaa1903ebaa1803f1
DWORD $0x12181d08531a6628
DWORD $0x790007282a512908
DWORD $0xf9403bec37000175
DWORD $0x1284282ab9409fe9
DWORD $0x7100013f39400188
DWORD $0x1a89014952800209
DWORD $0x79000169321c0108
DWORD $0xf94047e839000188
DWORD $0xb4000fe891001179
DWORD $0x710002dfa944a3e9
DWORD $0x9a9311179a931123
DWORD $0x8b170108cb0303a8
DWORD $0x54001081eb13011f
DWORD $0xf9402ff5cb170276
DWORD $0x14000096350011ba
DWORD $0x1400026f52800120
DWORD $0x54003503f1001109
DWORD $0x39400dca394009c8
DWORD $0xaa0a0908d376d508
DWORD $0x540034a3eb08013f
DWORD $0x529bd7cb794001ca
DWORD $0x910011058b080228
DWORD $0x7100413f12146d49
DWORD $0x6b0b015f1a9f17f0
DWORD $0x7100413f54fff160
DWORD $0x528000a054fff120
DWORD $0xf94043e91400025a
DWORD $0x11004128b9006ff0
DWORD $0xcb0800a88b0801fa
DWORD $0x91003128f90047e8
DWORD $0x8b0c0088a902ebe8
DWORD $0xf9002fe834001470
DWORD $0xb40021a8f94047e8
DWORD $0x2a1f03f4f94047e9
DWORD $0xaa1f03f9aa1f03fd
DWORD $0xa904ffffaa1a03e8
DWORD $0xaa0903f3f90013ff
DWORD $0x340000a939400109
DWORD $0xf1000a7faa1303e9
DWORD $0x140002fe54000522
DWORD $0x54000140f1000a7f
DWORD $0x54005f40f100067f
DWORD $0x54000108f1000e7f
DWORD $0x350000c939400509
DWORD $0x3500008939400909
DWORD $0x394005091400012a
DWORD $0xaa0103f6340024c9
DWORD $0x91000500aa0003fa
DWORD $0xaa1903f5d1000661
DWORD $0xaa0503fbaa1d03f9
DWORD $0xaa0d03f82a0303fd
DWORD $0xb400546197ffb7fc
DWORD $0xf94017f1f9403bea
DWORD $0xb9406ff0aa0103e9
DWORD $0xaa1a03e0aa0003e8
DWORD $0xaa1803edaa1603e1
DWORD $0x8b11014e2a1d03e3
DWORD $0xaa1903fdaa1b03e5
DWORD $0xf100093faa1503f9
DWORD $0x3940050a54005ae3
DWORD $0xeb0b01299100094b
DWORD $0x3940010c54005a63
DWORD $0x6b23019f8b0b0108
DWORD $0x8b0a03aa540000c0
DWORD $0x9100095daa0903f3
DWORD $0x140002cab5fff909
DWORD $0xaa1f03f3f94047eb
DWORD $0x5280003491000739
DWORD $0xcb09016bcb09016c
DWORD $0xf90013eacb0a018a
DWORD $0xa904afead100094a
DWORD $0x140002beb5fff769
DWORD $0x360019a9b9409fe9
DWORD $0xa943bff0f94057e9
DWORD $0x39001569f9402fe1
DWORD $0x52800049b9407feb
DWORD $0x3900032bf94057ea
DWORD $0x54001a0172001d4a
DWORD $0xb9406fe0140000f8
DWORD $0xaa1903e1f94047e4
DWORD $0xaa0303e2b9407fe5
DWORD $0x97ffc1eaaa1703e3
DWORD $0xaa0003e3aa1803f1
DWORD $0xf9402ff5aa0103f6
DWORD $0xb9406fe03400017a
DWORD $0xaa1803e2aa1903e1
DWORD $0xaa1603e5aa1703e4
DWORD $0xaa1803f197ffc2ca
DWORD $0xaa0103f6aa0003e3
DWORD $0xf94057e9aa0003f7
DWORD $0x8b090289f94017ef
DWORD $0xeb1302ea8b030133
DWORD $0xb4002b9654000182
DWORD $0xaa1603e9f10022df
DWORD $0xf100815f54002903
DWORD $0x540028a3aa1603e9
DWORD $0x54002242f10082df
DWORD $0x14000128aa1f03ea
DWORD $0xf10022dfb4002a36
DWORD $0xf94057ea540000e3
DWORD $0x8b0a01298b030289
DWORD $0xf100813fcb170129
DWORD $0xaa1f03e954002062
DWORD $0xf94043ed8b0901ea
DWORD $0x8b14014bf94057ec
DWORD $0xcb0902c98b17014a
DWORD $0x8b0d018c8b03016b
DWORD $0x8b0c016b8b0d014a
DWORD $0x8b1b016b8b1b014c
DWORD $0x9100418b9100416a
DWORD $0xf10005293840156c
DWORD $0x54ffffa13800154c
DWORD $0xf9002fe814000135
DWORD $0xb4000d68f94047e8
DWORD $0x2a1f03f4f94047f6
DWORD $0xaa1f03f9aa1f03fd
DWORD $0xf90013ffa904ffff
DWORD $0x1100412839400349
DWORD $0x7100811f12001d08
DWORD $0x34000169540000c2
DWORD $0x7103bd3faa1603e8
DWORD $0x140001a4540005a9
DWORD $0x9100090a92400d28
DWORD $0x54000582eb0a02c8
DWORD $0x14000028aa1603e8
DWORD $0x54000140f1000adf
DWORD $0x54003340f10006df
DWORD $0x54000108f1000edf
DWORD $0x350000c839400748
DWORD $0x3500008839400b48
DWORD $0x3940074814000080
DWORD $0xaa0103fb34000f88
DWORD $0x91000740aa0003f5
DWORD $0xb9001bf4d10006c1
DWORD $0xaa0d03f8aa0503f4
DWORD $0xb400468197ffb754
DWORD $0xf94017f1f9403bea
DWORD $0x39400009aa1403e5
DWORD $0xaa0103e8b9407fe3
DWORD $0xb9401bf4b9406ff0
DWORD $0xaa1503e0aa0003fa
DWORD $0xaa1803edaa1b03e1
DWORD $0x7103bd3f8b11014e
DWORD $0x12000d2a54002f28
DWORD $0xeb0a01081100094a
DWORD $0xaa0803f654002ea3
DWORD $0x8b0a035a53047d28
DWORD $0x540003406b23011f
DWORD $0x8b1d015d34000088
DWORD $0x1400016eb5fff816
DWORD $0xaa1903e0f9000fe0
DWORD $0x2a0303f3aa0103fb
DWORD $0x2a1403f5aa0d03f8
DWORD $0x97ffb743aa0503f4
DWORD $0xf9403be8f94017f1
DWORD $0xb9406ff0aa0003f9
DWORD $0xaa1403e5f9400fe0
DWORD $0x8b11010e2a1503f4
DWORD $0x2a1303e3aa1803ed
DWORD $0xb5fff576aa1b03e1
DWORD $0xf94047e814000159
DWORD $0x91000739aa1f03f3
DWORD $0xcb16010952800034
DWORD $0xf9002be8cb160108
DWORD $0xf90027e8cb0a0128
DWORD $0xf90013e891000508
DWORD $0x14000200b5fff3d6
DWORD $0x2a1f03f4a904ffff
DWORD $0xf90013ffaa1f03f9
DWORD $0xaa1f03f3aa1f03fd
DWORD $0xaa1f03e0140001f9
DWORD $0x14000237d348ffe1
DWORD $0xd348fc0152800020
DWORD $0x5280004014000234
DWORD $0x14000231d348fc01
DWORD $0xa943bff0b9407fea
DWORD $0x53041d49f9402fe1
DWORD $0xf94057ea2a0a1129
DWORD $0x5100052b0b0a0129
DWORD $0xf94057ea52800029
DWORD $0x72001d4a3900032b
DWORD $0x7100055f54000540
DWORD $0x3940002854000141
DWORD $0x1400004c38296b28
DWORD $0xd348fc0152800060
DWORD $0x528020601400021c
DWORD $0x14000219d348fc01
DWORD $0xf100095ff94057ea
DWORD $0x3940002854000228
DWORD $0x390001288b090329
DWORD $0x3900052839400428
DWORD $0x528040601400003d
DWORD $0x1400020dd348fc01
DWORD $0x140001ca52800053
DWORD $0x140001c852800073
DWORD $0xd348fc01528000e0
DWORD $0xf94057ea14000206
DWORD $0x54000121f1000d5f
DWORD $0x8b09032939400028
DWORD $0x3940042839000128
DWORD $0x3940082839000528
DWORD $0x1400002839000928
DWORD $0xf94057eb8b090320
DWORD $0xeb0b015fcb01000a
DWORD $0xf94057ea54000402
DWORD $0x54000163f100215f
DWORD $0xf94043ebf94017ea
DWORD $0x8b1b014aaa09014a
DWORD $0x8b0f020b8b0b014a
DWORD $0x9100414acb0b014a
DWORD $0x54002622f100815f
DWORD $0xf94017ebaa1f03ea
DWORD $0x8b0a016bf94057e8
DWORD $0x8b090169cb0a0108
DWORD $0x92400d6bf9404beb
DWORD $0x8b0a020b8b0b0929
DWORD $0x8b0b01e98b1b012c
DWORD $0x3840152b9100418a
DWORD $0x3800154bf1000508
DWORD $0x1400000454ffffa1
DWORD $0x94001c83f94057e2
DWORD $0xf94057e8aa1803f1
DWORD $0xeb0802298b080288
DWORD $0xf100053354001989
DWORD $0xb4001929540016cc
DWORD $0x54001821f100053f
DWORD $0x140000c538286b3f
DWORD $0xd348fc0152800100
DWORD $0x52806060140001c6
DWORD $0x140001c3d348fc01
DWORD $0xd348fc0152808060
DWORD $0xf10082df140001c0
DWORD $0xaa1f03e954001ac2
DWORD $0xf94043f0140000ec
DWORD $0x8b0f028cf94057ee
DWORD $0x8b1601eb8b03018c
DWORD $0x8b1002ed927d06c9
DWORD $0x927beaca8b0e02ce
DWORD $0x8b0e018c8b0d036d
DWORD $0x8b0b01ab8b10036e
DWORD $0x927beacd8b0c01cc
DWORD $0xd10081adad7f8161
DWORD $0xad3f8181d100816b
DWORD $0xb5ffff6dd100818c
DWORD $0x54000580eb0a02df
DWORD $0x8b0f0289b4002ae9
DWORD $0xf94043edf94057ec
DWORD $0x8b1701eb8b030129
DWORD $0x8b0d016c8b0c0129
DWORD $0x8b0d0129927df2cb
DWORD $0xcb0a012dcb0a018c
DWORD $0x92400ac98b1b018c
DWORD $0x9100218c8b1b01ad
DWORD $0x910021adcb0b014a
DWORD $0xb100214afc766980
DWORD $0xfc3669a0d100218c
DWORD $0x54ffff61d10021ad
DWORD $0x54000240eb0b02df
DWORD $0xf94043ed8b0901ea
DWORD $0x8b14014bf94057ec
DWORD $0x8b03016b8b17014a
DWORD $0x8b0d014a8b0d018c
DWORD $0x8b1b014c8b0c016b
DWORD $0x91003d6a8b1b016b
DWORD $0x385ff56c91003d8b
DWORD $0x381ff54cf1000529
DWORD $0xb9409fe954ffffa1
DWORD $0xb9407fea36000189
DWORD $0x3900012a8b030329
DWORD $0x3900052af94057ea
DWORD $0xf94057ea52800049
DWORD $0x8b03012a72001d4b
DWORD $0x14000026540001c1
DWORD $0x53041d49b9407fea
DWORD $0xf94057ea2a0a1129
DWORD $0x510005290b0a0129
DWORD $0x5280002938236b29
DWORD $0x72001d4bf94057ea
DWORD $0x540003408b03012a
DWORD $0x540000817100057f
DWORD $0x382a6b28394002a8
DWORD $0xf94057eb1400003f
DWORD $0x540000e8f100097f
DWORD $0x8b0a0329394002a8
DWORD $0x394006a839000128
DWORD $0x1400003639000528
DWORD $0xf1000d7ff94057eb
DWORD $0x394002a854000121
DWORD $0x390001288b0a0329
DWORD $0x39000528394006a8
DWORD $0x3900092839400aa8
DWORD $0x8b0a03201400002b
DWORD $0xcb15000af94057eb
DWORD $0x54000442eb0b015f
DWORD $0xf100215ff94057ea
DWORD $0x8b0301ea54000183
DWORD $0x8b09014af94043eb
DWORD $0x8b0b014a8b1b014a
DWORD $0x8b0b018ba943afec
DWORD $0x9100414acb0b014a
DWORD $0x54000842f100815f
DWORD $0x8b0a01ebaa1f03ea
DWORD $0x8b03016bf94057e8
DWORD $0xf9404beb8b090169
DWORD $0x92400d6bcb0a0108
DWORD $0x8b1b012c8b0b0929
DWORD $0x8b0a016ba943a7eb
DWORD $0x8b0b01299100418a
DWORD $0xf10005083840152b
DWORD $0x54ffffa13800154b
DWORD $0xf94057e214000005
DWORD $0x94001bcdaa1503e1
DWORD $0x8b1302c8aa1803f1
DWORD $0x540002e9eb080229
DWORD $0x54ffe98df1000533
DWORD $0x540000e0f100093f
DWORD $0x540000e0f1000d3f
DWORD $0x54000121f100113f
DWORD $0x1400000db8286b3f
DWORD $0x1400000b78286b3f
DWORD $0x3900091f8b080328
DWORD $0x140000077900011f
DWORD $0x2a1f03e18b080334
DWORD $0xaa1403e0aa1303e2
DWORD $0x38336a9f94001c04
DWORD $0xf9401bf7f94033f3
DWORD $0xf90002772a1f03e0
DWORD $0xf94053fda94f4ff4
DWORD $0xa94d5ff8a94e57f6
DWORD $0xa94b6ffea94c67fa
	ADD $256, RSP
WORD $0xd65f03c0
	SUB $256, RSP
WORD $0xaa1603f3
DWORD $0xaa1f03f3140000b5
DWORD $0xf94057ea140000b3
DWORD $0x540007c2f100815f
DWORD $0x14000053aa1f03ea
DWORD $0x2a1f03e112001c68
DWORD $0x528000a87100391f
DWORD $0x140000e91a888500
DWORD $0x8b0f0289f94057ea
DWORD $0x8b1701ecf94043ed
DWORD $0x927d06ca8b0a0129
DWORD $0x8b1b01ad8b0d0129
DWORD $0x8b0d018c8b03012b
DWORD $0x8b1b016b927beac9
DWORD $0x927beacd9100818c
DWORD $0xad7f85809100816b
DWORD $0x9100818cf10081ad
DWORD $0x9100816bad3f8560
DWORD $0xeb0902df54ffff61
DWORD $0xb4ffc22a54ffeb20
DWORD $0xaa0903eaf94057ec
DWORD $0x8b0301298b0f0289
DWORD $0x8b0c014c8b1701eb
DWORD $0x8b0c012c8b0a016b
DWORD $0x8b1b012df94043e9
DWORD $0x927df2c98b09016b
DWORD $0x8b1b016d8b0d018c
DWORD $0x9100418bcb09014a
DWORD $0xfc408580910041ac
DWORD $0xfc008560b100214a
DWORD $0xeb0902df54ffffa1
DWORD $0x17fffdf954ffe820
DWORD $0xf100815ff94057ea
DWORD $0xaa1f03ea540007a2
DWORD $0x8b0301ea14000051
DWORD $0xf94057f0f94043ec
DWORD $0x8b09014aa943b7ee
DWORD $0x927d060b8b0c014c
DWORD $0x8b0d01cd927b0a0a
DWORD $0x910041ac8b1b018e
DWORD $0x927b0a0e910081cd
DWORD $0xf10081cead7f8580
DWORD $0xad3f85a09100818c
DWORD $0x54ffff61910081ad
DWORD $0xeb0a019ff94057ec
DWORD $0xb4ffed4b54fff020
DWORD $0x8b0301eaaa0a03eb
DWORD $0x8b0b014af9404bec
DWORD $0x8b09014af9401fed
DWORD $0x8b0c094c92400d8c
DWORD $0x8b0b01adf94057ea
DWORD $0xf94023ec8b1b018e
DWORD $0xcb0a016b927d114a
DWORD $0x910041cd8b0d018c
DWORD $0xb100216bfc408580
DWORD $0x54ffffa1fc0085a0
DWORD $0xeb0a017ff94057eb
DWORD $0x17ffff5254ffed20
DWORD $0xf94017f1f9403be8
DWORD $0xb9406ff0aa1a03e0
DWORD $0xaa1803edaa1603e1
DWORD $0xaa1b03e58b11010e
DWORD $0xaa1503f9aa1903fd
DWORD $0xf94017ea14000039
DWORD $0x8b0f020df94043ec
DWORD $0x8b09014af94057e0
DWORD $0x927d040b8b0c014c
DWORD $0x8b1b018e927b080a
DWORD $0x910081cd910041ac
DWORD $0xad7f8580927b080e
DWORD $0x9100818cf10081ce
DWORD $0x910081adad3f85a0
DWORD $0xf94057ec54ffff61
DWORD $0x54ffd240eb0a019f
DWORD $0xaa0a03ebb4ffcfab
DWORD $0xf9404becf94017ea
DWORD $0x8b0b014a8b0b020d
DWORD $0x8b09014a92400d8c
DWORD $0xf94057ea8b0c094c
DWORD $0x8b1b018e927d114a
DWORD $0xcb0a016b8b0d01ec
DWORD $0xfc408580910041cd
DWORD $0xfc0085a0b100216b
DWORD $0xf94057eb54ffffa1
DWORD $0x54ffcf80eb0a017f
DWORD $0x924012c917fffe67
DWORD $0xf9403be817fffec2
DWORD $0xaa1403e5f94017f1
DWORD $0xb9401bf4b9406ff0
DWORD $0xaa1503e0aa1603f3
DWORD $0xaa1803edaa1b03e1
DWORD $0xb9409fe88b11010e
DWORD $0x1a9f17f67100069f
DWORD $0x1a9f17f56b08021f
DWORD $0x7100069f540002c1
DWORD $0xf100073f54000281
DWORD $0xf9402be854000241
DWORD $0xcb090108f94013e9
DWORD $0xeb09011ff94057e9
DWORD $0xa945cfe154000181
DWORD $0xf94057e9910011c8
DWORD $0xf94057e9b40009a9
DWORD $0x540006817100053f
DWORD $0x39400029f94013ea
DWORD $0x17ffff25382a6909
DWORD $0x6b10011fb9409fe8
DWORD $0xcb130113f94047e8
DWORD $0xb4ff8dfd54ff8e00
DWORD $0xb9409fe1aa0103fb
DWORD $0xb9407fe4f9401be2
DWORD $0x2a1003e0aa0003fa
DWORD $0xaa0d03f8aa1303e3
DWORD $0x97ffbd7baa0503f4
DWORD $0xf9403be8f94017f1
DWORD $0xaa1803edaa1403e5
DWORD $0xaa1b03e1aa0103e9
DWORD $0x2a0003e88b11010e
DWORD $0x2a1f03f5aa1a03e0
DWORD $0x12001d085280003a
DWORD $0x54ff8ba07100051f
DWORD $0xf9401be1b9406fe0
DWORD $0x97ffbe27f94047e2
DWORD $0x7100001f528000a8
DWORD $0x1a8815002a1f03e1
DWORD $0xf94053fda94f4ff4
DWORD $0xa94d5ff8a94e57f6
DWORD $0xa94b6ffea94c67fa
	ADD $256, RSP
WORD $0x17ffc340
	SUB $256, RSP
WORD $0xf94057e9
DWORD $0x54000108f100093f
DWORD $0x39400029f94013ea
DWORD $0x390001098b0a0108
DWORD $0x3900050939400429
DWORD $0xf94057e917fffeec
DWORD $0x54000141f1000d3f
DWORD $0x39400029f94013ea
DWORD $0x390001098b0a0108
DWORD $0x3900050939400429
DWORD $0x3900090939400829
DWORD $0xf94013e917fffee0
DWORD $0x8b090108f94057ea
DWORD $0xeb0a013fcb010109
DWORD $0xf94057e854000462
DWORD $0x54000183f100211f
DWORD $0xf94043e9f94013e8
DWORD $0x8b0001088b0801a8
DWORD $0xa943a7ea8b090108
DWORD $0xcb0901088b090149
DWORD $0xf100811f91004108
DWORD $0xaa1f03e854000322
DWORD $0xf9404beaf94013e9
DWORD $0x92400d4a8b0901a9
DWORD $0x8b0a09298b080129
DWORD $0x8b00012bf9401fea
DWORD $0x8b08014af94057e9
DWORD $0xf94023e9cb080128
DWORD $0x9100416a8b0a0129
DWORD $0xf10005083840152b
DWORD $0x54ffffa13800154b
DWORD $0xf94057e217fffeb8
DWORD $0x94001a65aa0803e0
DWORD $0xf94057e817fffeb4
DWORD $0x54000062f100811f
DWORD $0x14000018aa1f03e8
DWORD $0xf94013e8a943afec
DWORD $0x8b0801a8f94057ee
DWORD $0xf94043ec8b0b018b
DWORD $0x927d05c98b00010a
DWORD $0x8b0c014c927b09c8
DWORD $0x9100818b9100416a
DWORD $0xad7f8540927b09cc
DWORD $0x9100814af100818c
DWORD $0x9100816bad3f8560
DWORD $0xf94057ea54ffff61
DWORD $0x54ffd320eb08015f
DWORD $0xaa0803e9b4fff9c9
DWORD $0xf9404beaf94013e8
DWORD $0x8b0801a8f9401feb
DWORD $0x8b09010892400d4a
DWORD $0x8b0a090a8b09016b
DWORD $0x8b00014cf94057e8
DWORD $0x927d1108f94023ea
DWORD $0x8b0b014acb080129
DWORD $0xfc4085409100418b
DWORD $0xfc008560b1002129
DWORD $0xf94057e954ffffa1
DWORD $0x54ffd020eb08013f
WORD $0x17ffffb6
	ADD $256, RSP
	// 79896: rtpw_remove_block
WORD $0xf81c03fe
	SUB $64, RSP
DWORD $0xa90257f6f9000bfe
DWORD $0xaa0203f3a9034ff4
DWORD $0xf100001ff9400042
DWORD $0x9a9f010852820008
DWORD $0x54000523eb02003f
DWORD $0x540005e3f100305f
DWORD $0x39c002888b080014
DWORD $0x5400066c3101051f
DWORD $0xd37e0d0992401d08
DWORD $0xeb15005691003135
DWORD $0xaa1503e1540006c3
DWORD $0xf10012c8362001a8
DWORD $0x8b15028954000743
DWORD $0x39400d293940092a
DWORD $0xaa090949d376d54a
DWORD $0x54000763eb09011f
DWORD $0x910011018b0902a8
DWORD $0xaa1403e0cb010056
DWORD $0x97ffbdd2aa1503e3
DWORD $0x8b1502c939400288
DWORD $0xa94257f62a1f03e0
DWORD $0x39000288121b7908
DWORD $0xa9434ff4f9000269
WORD $0xf9400bfe
	ADD $64, RSP
WORD $0xd65f03c0
	SUB $64, RSP
DWORD $0x2a1f03e12a1f03e0
DWORD $0xa94257f6a9434ff4
WORD $0xf9400bfe
	ADD $64, RSP
WORD $0x17ffc28d
	SUB $64, RSP
DWORD $0x528000602a1f03e1
DWORD $0xa94257f6a9434ff4
WORD $0xf9400bfe
	ADD $64, RSP
WORD $0x17ffc285
	SUB $64, RSP
DWORD $0x5280006052800021
DWORD $0xa94257f6a9434ff4
WORD $0xf9400bfe
	ADD $64, RSP
WORD $0x17ffc27d
	SUB $64, RSP
DWORD $0x5280006052800041
DWORD $0xa94257f6a9434ff4
WORD $0xf9400bfe
	ADD $64, RSP
WORD $0x17ffc275
	SUB $64, RSP
DWORD $0x5280006152800060
DWORD $0xa94257f6a9434ff4
WORD $0xf9400bfe
	ADD $64, RSP
WORD $0x17ffc26d
	SUB $64, RSP
DWORD $0x5280006052800081
DWORD $0xa94257f6a9434ff4
WORD $0xf9400bfe
	ADD $64, RSP
WORD $0x17ffc265
	// 80292: rtpw_remove_element
WORD $0x52820008
DWORD $0x9a9f0108f100001f
DWORD $0x54000643f100303f
DWORD $0x39c001098b080008
DWORD $0x5400060c3101053f
DWORD $0xd37e0d6a92401d2b
DWORD $0xeb09002c91003149
DWORD $0x3720006b540005a3
DWORD $0xd65f03c052800160
DWORD $0x54000543f100118d
DWORD $0x3940098b8b09010c
DWORD $0xd376d56b39400d8e
DWORD $0xeb0b01bfaa0e096b
DWORD $0x7940018c540004a3
DWORD $0x2a0203e3529bd7cd
DWORD $0x6b0d019f52800160
DWORD $0x5400008012146d8c
DWORD $0x540000407100419f
DWORD $0xf81e03fed65f03c0
	SUB $32, RSP
WORD $0xf9000bfe
DWORD $0x7100419f1100414a
DWORD $0x1a9f17e0cb0a0129
DWORD $0x8b0b01298b0a0101
DWORD $0x97ffca9c91001122
DWORD $0x528001602a0003e8
DWORD $0x1a8013e07100011f
WORD $0xf9400bfe
	ADD $32, RSP
DWORD $0x2a1f03e0d65f03c0
DWORD $0x5280002017ffca8d
DWORD $0x5280004017ffca8b
DWORD $0x5280006017ffca89
DWORD $0x5280008017ffca87
WORD $0x17ffca85
	// 80548: rtpw_remove_padding
WORD $0x52820008
DWORD $0x9a9f0108f100001f
DWORD $0x54000503f100303f
DWORD $0x39c001098b080008
DWORD $0x540004cc3101053f
DWORD $0xd37e0d2a92401d29
DWORD $0xeb0a002b9100314a
DWORD $0x362001a954000463
DWORD $0x54000443f100116b
DWORD $0x3940098d8b0a010c
DWORD $0xd376d5ad39400d8c
DWORD $0xeb0c017faa0c09ac
DWORD $0x8b0c014a540003a3
DWORD $0xcb0a002b9100114a
DWORD $0xeb0a003f36280169
DWORD $0xaa1f03eb54000061
DWORD $0x8b01010c14000007
DWORD $0xeb0c016b385ff18c
DWORD $0x5280012054000062
DWORD $0x2a1f03e0d65f03c0
DWORD $0x8b0a016a12197529
DWORD $0xf900004a39000109
DWORD $0x2a1f03e0d65f03c0
DWORD $0x5280002017ffca57
DWORD $0x5280004017ffca55
DWORD $0x5280006017ffca53
DWORD $0x5280008017ffca51
WORD $0x17ffca4f
	// 80764: rtpw_renumber
WORD $0xd10503f0
WORD $0xf900021e
	SUB $320, RSP
DWORD $0xf100001fa9137bfd
DWORD $0xf90097ff52820008
DWORD $0xf100303f9a9f0108
DWORD $0x8b08000854000a03
DWORD $0x3101053f39c00109
DWORD $0x92401d2a54000a2c
DWORD $0x91003129d37e0d49
DWORD $0x54000a23eb09002b
DWORD $0x2a1f03eb3720008a
DWORD $0x140000132a1f03ea
DWORD $0x54000a03f100116c
DWORD $0x3940094b8b09010a
DWORD $0xd376d56b39400d4d
DWORD $0xeb0b019faa0d096b
DWORD $0x7940014c540009c3
DWORD $0x8b0b0129529bd7cd
DWORD $0x12146d8a91001129
DWORD $0x1a9f17ea7100415f
DWORD $0x1a9f154b6b0d019f
DWORD $0x910043ec3ccc1040
DWORD $0xa91107e83ccd1041
DWORD $0x910043e1910443e0
DWORD $0x3cce10403c8c1180
DWORD $0x3dc03c413c8d1181
DWORD $0x3cc810403c8e1180
DWORD $0x3cc910413d8043e1
DWORD $0x3cca10403c881180
DWORD $0x3ccb10413c891181
DWORD $0x3cc410403c8a1180
DWORD $0x3cc510413c8b1181
DWORD $0x3cc610403c8513e0
DWORD $0x3c8713e03c8613e1
DWORD $0xf90093e93cc71040
DWORD $0x3cc010403c8813e0
DWORD $0x3c8113e03904a3eb
DWORD $0x3904a7ea3cc11040
DWORD $0x3cc210403c8213e0
DWORD $0x3c8313e0390043ff
DWORD $0x3c8413e03cc31040
DWORD $0xa9537bfd97ffc4bc
DWORD $0x7100001f52800208
WORD $0x1a8813e0
	ADD $320, RSP
WORD $0xd65f03c0
	SUB $320, RSP
DWORD $0xa9537bfd2a1f03e0
	ADD $320, RSP
WORD $0x17ffc9f2
	SUB $320, RSP
WORD $0x52800020
WORD $0xa9537bfd
	ADD $320, RSP
WORD $0x17ffc9ed
	SUB $320, RSP
DWORD $0xa9537bfd52800040
	ADD $320, RSP
WORD $0x17ffc9e8
	SUB $320, RSP
WORD $0x52800060
WORD $0xa9537bfd
	ADD $320, RSP
WORD $0x17ffc9e3
	SUB $320, RSP
DWORD $0xa9537bfd52800080
	ADD $320, RSP
WORD $0x17ffc9de
	// 81216: rtpw_set_csrc
DWORD $0x52820008f100001f
DWORD $0xf100303f9a9f0108
DWORD $0x8b080008540003c3
DWORD $0x3101053f39c00109
DWORD $0x92401d295400038c
DWORD $0x9100314ad37e0d2a
DWORD $0x54000323eb0a002b
DWORD $0xf100116b36200149
DWORD $0x8b0a010a54000303
DWORD $0x39400d4a3940094c
DWORD $0xaa0a098ad376d58c
DWORD $0x54000263eb0a017f
DWORD $0xeb09005f92400d29
DWORD $0x8b020908540000c2
DWORD $0x5ac008692a1f03e0
DWORD $0xd65f03c0b9000d09
DWORD $0xd65f03c052800160
DWORD $0x17ffc9ba2a1f03e0
DWORD $0x17ffc9b852800020
DWORD $0x17ffc9b652800040
DWORD $0x17ffc9b452800060
DWORD $0x17ffc9b252800080
	// 81392: rtp_proved_set_element
WORD $0xf81803fe
	SUB $128, RSP
DWORD $0xa9036ffef90013fd
DWORD $0xa9055ff8a90467fa
DWORD $0xa9074ff4a90657f6
DWORD $0xf100001f52820008
DWORD $0xf100007f9a9f0114
DWORD $0xf100303f9a9f0113
DWORD $0x8b140008540012c3
DWORD $0x3101053f39c00109
DWORD $0x92401d355400128c
DWORD $0x910032e9d37e0eb7
DWORD $0x54001223eb09002a
DWORD $0xf100114c36200235
DWORD $0x8b09010b54001203
DWORD $0x39400d6d3940096a
DWORD $0xaa0d094ad376d54a
DWORD $0x54001163eb0a019f
DWORD $0x529bd7cc7940016b
DWORD $0x12146d6b6b0c017f
DWORD $0x7100417f540001c0
DWORD $0x5280016854000180
DWORD $0x2a0803e0a9474ff4
DWORD $0xf94013fda94657f6
DWORD $0xa94467faa9455ff8
WORD $0xa9436ffe
	ADD $128, RSP
WORD $0xd65f03c0
	SUB $128, RSP
DWORD $0x7100417f110042ec
DWORD $0xcb0c012912001c5b
DWORD $0x8b0a01298b0c0118
DWORD $0x540006819100113d
DWORD $0xaa1d03e1b4fffdbd
DWORD $0xb9002fffaa1803e8
DWORD $0x39400109a9017fff
DWORD $0xf100083f35000329
DWORD $0xf100043f54000140
DWORD $0xf1000c3f54000e60
DWORD $0x3940050954000108
DWORD $0x39400909350000c9
DWORD $0x1400006c35000089
DWORD $0x34000d4939400509
DWORD $0xd1000421aa0003f6
DWORD $0xaa0303f991000500
DWORD $0x97ffb289aa0403fa
DWORD $0xaa0003e8b4000c01
DWORD $0xaa1903e3aa1a03e4
DWORD $0xf100083faa1603e0
DWORD $0x3940050954000ba3
DWORD $0xeb0a00219100092a
DWORD $0x3940010b54000b23
DWORD $0x6b1b017f8b0a0108
DWORD $0xb5fffb8154000060
DWORD $0xcb0103ab14000053
DWORD $0xcb090169cb0103aa
DWORD $0x52800029a90127ea
DWORD $0xb5fffa81b9002fe9
DWORD $0xb4fff75d1400004b
DWORD $0xaa1803e8aa1d03e1
DWORD $0xa9017fffb9002fff
DWORD $0x3500034939400109
DWORD $0x54000140f100083f
DWORD $0x54000800f100043f
DWORD $0x54000108f1000c3f
DWORD $0x350000c939400509
DWORD $0x3500008939400909
DWORD $0x3940050914000039
DWORD $0xaa0003f6340006e9
DWORD $0x91000500d1000421
DWORD $0xaa0403faaa0303f9
DWORD $0xb40005a197ffb256
DWORD $0xaa0003e839400009
DWORD $0xaa1903e3aa1a03e4
DWORD $0x7103bd3faa1603e0
DWORD $0x12000d2a54000528
DWORD $0xeb0a00211100094a
DWORD $0x6b49137f540004a3
DWORD $0x540000608b0a0108
DWORD $0x14000020b5fffb81
DWORD $0xcb0103a9cb0103ab
DWORD $0xcb0a0169f9000be9
DWORD $0xf9000fe991000529
DWORD $0xb9002fe952800029
DWORD $0x14000016b5fffa41
DWORD $0x140000082a1f03e0
DWORD $0x1400000652800020
DWORD $0x1400000452800040
DWORD $0x1400000252800060
DWORD $0xa9474ff452800080
DWORD $0xa94657f6f94013fd
DWORD $0xa94467faa9455ff8
WORD $0xa9436ffe
	ADD $128, RSP
WORD $0x17ffc8fd
	SUB $128, RSP
DWORD $0xaa1903e3aa1a03e4
DWORD $0xb9402fe8aa1603e0
DWORD $0x528001687100051f
DWORD $0xa94137e954ffedc1
DWORD $0xeb04013fcb0d0129
DWORD $0x8b13006154ffed41
DWORD $0xf100049fb4000364
DWORD $0x39400029540000a1
DWORD $0x382d6b092a1f03e8
DWORD $0xf100089f17ffff62
DWORD $0x3940002954000108
DWORD $0x2a1f03e88b0d030a
DWORD $0x3940042939000149
DWORD $0x17ffff5939000549
DWORD $0x54000141f1000c9f
DWORD $0x8b0d030a39400029
DWORD $0x390001492a1f03e8
DWORD $0x3900054939400429
DWORD $0x3900094939400829
DWORD $0x8b0d030817ffff4e
DWORD $0xeb04013fcb010109
DWORD $0xf100209f54000362
DWORD $0x8b0d028854000123
DWORD $0x8b0001088b030269
DWORD $0xcb0901088b170108
DWORD $0xf100811f91004108
DWORD $0xaa1f03e8540002c2
DWORD $0x92400eaa8b080289
DWORD $0x8b0a09298b0d0129
DWORD $0x8b0a006a8b08026a
DWORD $0xcb0800898b00012b
DWORD $0x3840154c9100416b
DWORD $0xf10005292a1f03e8
DWORD $0x54ffff813800156c
DWORD $0xaa0803e017ffff30
DWORD $0x940017bbaa0403e2
DWORD $0x17ffff2b2a1f03e8
DWORD $0x54000062f100809f
DWORD $0x14000013aa1f03e8
DWORD $0x8b03026b8b0d0288
DWORD $0x8b00010a927d0489
DWORD $0x8b17014c927be888
DWORD $0x9100818b9100416a
DWORD $0xad7f8540927be88c
DWORD $0x9100814af100818c
DWORD $0x9100816bad3f8560
DWORD $0xeb08009f54ffff61
DWORD $0xb4fffae954fffd40
DWORD $0x8b0d0288aa0803e9
DWORD $0x8b09010892400eaa
DWORD $0x8b0a090a8b09026b
DWORD $0xcb080129927df088
DWORD $0x8b0b006a8b00014c
DWORD $0xfc4085409100418b
DWORD $0xfc008560b1002129
DWORD $0xeb08009f54ffffa1
DWORD $0x17ffffd754fff8c1
	ADD $128, RSP
	// 82580: rtpw_set_padding
WORD $0x52820008
DWORD $0x9a9f0108f100001f
DWORD $0x54000383f100303f
DWORD $0x39c001098b080008
DWORD $0x5400034c3101053f
DWORD $0xd37e0d2a92401d29
DWORD $0xeb0a002b9100314a
DWORD $0x36200149540002e3
DWORD $0x540002c3f100116b
DWORD $0x3940094c8b0a010a
DWORD $0xd376d58c39400d4a
DWORD $0xeb0a017faa0a098a
DWORD $0x7200005f54000223
DWORD $0x12800beb12800fea
DWORD $0x2a1f03e01a8a116a
DWORD $0x3900010a3300112a
DWORD $0x2a1f03e0d65f03c0
DWORD $0x5280002017ffc867
DWORD $0x5280004017ffc865
DWORD $0x5280006017ffc863
DWORD $0x5280008017ffc861
WORD $0x17ffc85f
	// 82748: rtpw_to_retransmission
WORD $0xf100001f
DWORD $0x9a9f010852820008
DWORD $0xd10683f037380644
WORD $0xf900021e
	SUB $416, RSP
DWORD $0xa9156ffef900a3fd
DWORD $0xa9175ff8a91667fa
DWORD $0xa9194ff4a91857f6
DWORD $0x910083e93ccc10c0
DWORD $0x390083ff3ccd10c1
DWORD $0x3cce10c03c8c1120
DWORD $0x3dc03cc13c8d1121
DWORD $0x3cc810c03c8e1120
DWORD $0x3cc910c13d8047e1
DWORD $0x3cca10c03c881120
DWORD $0x3ccb10c13c891121
DWORD $0x3cc410c03c8a1120
DWORD $0x3cc510c13c8b1121
DWORD $0x3c8613e0f9400049
DWORD $0x3c8713e13cc610c0
DWORD $0xeb09003f3cc710c1
DWORD $0x3cc010c03c8813e0
DWORD $0x3cc110c13c8913e1
DWORD $0x3cc210c03c8213e0
DWORD $0x3c8413e03c8313e1
DWORD $0x3c8513e03cc310c0
DWORD $0x52800120540000e2
WORD $0x14000015
	ADD $416, RSP
DWORD $0xd65f03c052800120
	SUB $416, RSP
WORD $0xf100313f
DWORD $0x5280002054000062
DWORD $0x8b0800141400000d
DWORD $0x3101051f39c00288
DWORD $0x92401d0b5400010c
DWORD $0x91003115d37e0d68
DWORD $0x540001a2eb150133
DWORD $0x1400000252800060
DWORD $0xa9594ff452800040
DWORD $0xa95857f6f940a3fd
DWORD $0xa95667faa9575ff8
WORD $0xa9556ffe
	ADD $416, RSP
WORD $0xd65f03c0
	SUB $416, RSP
DWORD $0x2a1f03ec3720010b
DWORD $0x3628044b2a1f03ea
DWORD $0x54000201eb15013f
DWORD $0x1400001eaa1f03f3
DWORD $0x54000062f100126d
DWORD $0x17ffffec52800080
DWORD $0x3940098a8b15028c
DWORD $0xd376d54a39400d8e
DWORD $0xeb0a01bfaa0e094a
DWORD $0x528000c054000102
DWORD $0x8b09028917ffffe3
DWORD $0xeb090273385ff129
DWORD $0x1400000c54fff923
DWORD $0x8b0a02ae7940018c
DWORD $0x12146d8d910011d5
DWORD $0x710041bfcb150133
DWORD $0x1a9f17ea529bd7cd
DWORD $0x1a9f154c6b0d019f
DWORD $0x8b150276372ffc0b
DWORD $0xf100053fcb160029
DWORD $0x3400004c540000a8
DWORD $0x528001003600058a
DWORD $0x39400a9817ffffcb
DWORD $0x910483e039400e99
DWORD $0x2a0503fd910083e1
DWORD $0x2a0303fa2a0403fb
DWORD $0xa91257f4aa0203f7
DWORD $0x3904e3eca9137ff5
DWORD $0x97ffc2933904e7ea
DWORD $0x3940028836000340
DWORD $0x3940068b5ac00ba9
DWORD $0x53107d295280100a
DWORD $0x121901683300110a
DWORD $0x2a1b010879000689
DWORD $0x3900028a5ac00b49
DWORD $0xb9000a8939000688
DWORD $0x8b150288b40000d3
DWORD $0xaa1303e28b150281
DWORD $0x940016c791000900
DWORD $0x91000ac92a192308
DWORD $0x78356a882a1f03e0
DWORD $0x17ffffa4f90002e9
DWORD $0x17ffffa252800200
DWORD $0xfd4013e10f00e5c0
DWORD $0x2e30a8212e203421
DWORD $0x370000c91e260029
DWORD $0x2e203420fc4273e1
DWORD $0x1e2600092e30a800
DWORD $0x110041093607f969
DWORD $0xcb0902a18b090288
DWORD $0x39400109b4fff8e1
DWORD $0xf100083f35000289
DWORD $0xf100043f54000140
DWORD $0xf1000c3f54fff820
DWORD $0x3940050954000108
DWORD $0x39400909350000c9
DWORD $0x17ffffba35000089
DWORD $0x34fff70939400509
DWORD $0x91000500d1000421
DWORD $0xb4fff68197ffb0c4
DWORD $0xaa0003e839400009
DWORD $0x54fff6087103bd3f
DWORD $0x1100094a12000d2a
DWORD $0x54fff583eb0a0021
DWORD $0x910083eb2a0903e9
DWORD $0xd344fd298b0a0108
DWORD $0x3869696952800200
DWORD $0x54fffba371003d3f
WORD $0x17ffff6f
	ADD $416, RSP
	// 83624: rtpw_set_fields
DWORD $0xf100001f39403c4a
DWORD $0x39c0284952820008
DWORD $0x3400008a9a9f0108
DWORD $0x5280012036f80069
DWORD $0xf100303fd65f03c0
DWORD $0x8b08000854000643
DWORD $0x3101057f39c0010b
DWORD $0x92401d645400060c
DWORD $0x91003163d37e0c8b
DWORD $0x540005a3eb030021
DWORD $0x3940404029402c4e
DWORD $0x3940385039402c51
DWORD $0x3940304d7940104f
DWORD $0x362001443940344c
DWORD $0x540004a3f1001021
DWORD $0x394008438b030102
DWORD $0xd376d46339400c42
DWORD $0xeb02003faa020862
DWORD $0x340000e054000403
DWORD $0x12800ff17100023f
DWORD $0x1a9103f139400500
DWORD $0x3900051133001811
DWORD $0x3940050a340000aa
DWORD $0xb0901491219014a
DWORD $0x3400007039000509
DWORD $0x790005095ac005e9
DWORD $0x5ac009c93400006d
DWORD $0x2a1f03e0b9000509
DWORD $0x5ac009693400006c
DWORD $0xd65f03c0b9000909
DWORD $0x17ffc7462a1f03e0
DWORD $0x17ffc74452800020
DWORD $0x17ffc74252800040
DWORD $0x17ffc74052800060
DWORD $0x17ffc73e52800080
	// 83904: rtpw_set_payload_type
DWORD $0x52820008f100001f
DWORD $0x373803829a9f0108
DWORD $0x54000383f100303f
DWORD $0x39c001098b080008
DWORD $0x5400034c3101053f
DWORD $0xd37e0d4992401d2a
DWORD $0xeb09002b91003129
DWORD $0x3620014a540002e3
DWORD $0x540002c3f100116a
DWORD $0x3940092b8b090109
DWORD $0xd376d56b39400d29
DWORD $0xeb09015faa090969
DWORD $0x3940050954000223
DWORD $0x121901292a1f03e0
DWORD $0x390005092a020129
DWORD $0x52800120d65f03c0
DWORD $0x2a1f03e0d65f03c0
DWORD $0x5280002017ffc71b
DWORD $0x5280004017ffc719
DWORD $0x5280006017ffc717
DWORD $0x5280008017ffc715
WORD $0x17ffc713
	// 84076: rtpw_receiver_record
WORD $0x39406008
DWORD $0xa940280c34000208
DWORD $0xeb01018bf9400809
DWORD $0x54000222b240014a
DWORD $0xf100057fcb0c002b
DWORD $0xaa0a056b540002a1
DWORD $0x7100051f93cafd29
DWORD $0xf9000809a9002c01
DWORD $0x1400003254000621
	MOVD $rtp_wire_constants<>+112(SB), R8
DWORD $0x3dc00100f9000001
DWORD $0x1400002a3c808000
DWORD $0x540002e9f101fd7f
DWORD $0xa900280c7100051f
DWORD $0x54000481f9000809
DWORD $0xf101fd7f14000025
DWORD $0xd341fd4c54000488
DWORD $0x9acb21292a2b03ed
DWORD $0xf27a017f9acb214a
DWORD $0x9a8a13eb9acd258c
DWORD $0xb240016baa0c0129
DWORD $0x7100051f9a891149
DWORD $0xf9000809a9002c01
DWORD $0x1400001454000261
DWORD $0xf27a017f5280002d
DWORD $0x9a8d13eb9acb21ad
DWORD $0x8a0901ae9a9f11ad
DWORD $0xaa0e01ee8a0a016f
DWORD $0x9a9f01adf10001df
DWORD $0xaa0a016b9a9f016b
DWORD $0x7100051faa0901a9
DWORD $0xf9000809a9002c0c
DWORD $0x5280002854000060
DWORD $0xd65f03c039006008
DWORD $0x7100051f5280002b
DWORD $0xf900081fa9002c01
DWORD $0x17fffffa54ffff21
	// 84368: rtpw_receiver_start
DWORD $0xb4000069d370fc29
DWORD $0xd65f03c052800120
DWORD $0xaa0003e8d370bc29
DWORD $0xa900fd1f2a1f03e0
DWORD $0x3900611ff9000109
WORD $0xd65f03c0
	// 84412: rtpw_make_from_group
WORD $0xd107c3f0
WORD $0xf900021e
	SUB $496, RSP
DWORD $0xf900cffdfd00cbe8
DWORD $0xa91b67faa91a6ffe
DWORD $0xa91d57f6a91c5ff8
DWORD $0xf100003fa91e4ff4
DWORD $0x3948880952820008
DWORD $0xf100007f9a9f010d
DWORD $0x9a9f010ba906ffff
DWORD $0xf9003fff7100413f
DWORD $0x39488c0854000108
DWORD $0x540000a87100091f
DWORD $0x3500006a3940000a
DWORD $0x3400018a3944000a
DWORD $0xa95e4ff452800120
DWORD $0xa95d57f6f940cffd
DWORD $0xa95c5ff8fd40cbe8
DWORD $0xa95a6ffea95b67fa
	ADD $496, RSP
WORD $0xd65f03c0
	SUB $496, RSP
WORD $0x2a1f03ea
DWORD $0xaa1f03f1340002e9
DWORD $0x9108000f9104000c
DWORD $0x5280002e91084010
DWORD $0x91000633387169e7
DWORD $0xeb06027f38674986
DWORD $0x38716a1154fffd41
DWORD $0x710038ff510004e7
DWORD $0xb11014a51000633
DWORD $0x7a503a62aa0603f1
DWORD $0x6b0900df1a9f27e7
DWORD $0x54fffe210a0e00ee
DWORD $0x5280002e14000002
DWORD $0x6b2a219f7944400c
DWORD $0x3948900c54fffb41
DWORD $0x1a9f07ef7100019f
DWORD $0x3707faae4a0f01ce
DWORD $0x54000062f100305f
DWORD $0x17ffffd252800020
DWORD $0x39c0026d8b0d0033
DWORD $0x5400010c310105bf
DWORD $0xd37e0db192401dad
DWORD $0xeb1d004e9100323d
DWORD $0x52800060540000a2
DWORD $0x5280004017ffffc7
DWORD $0x372005cd17ffffc5
DWORD $0x2a1f03f62a1f03f7
DWORD $0x5280002d6f00e400
DWORD $0xa9177fed8b0b0075
DWORD $0xa9137fff910203ed
DWORD $0xa9187ffff9008fff
DWORD $0xad0503e0ad0403e0
DWORD $0x3d803be0ad0603e0
DWORD $0xa90583e53d801da0
DWORD $0x34001a77f9001fe4
DWORD $0xcb0e03ab1100422e
DWORD $0x540019e8f104017f
DWORD $0xd37ffbad321e3feb
DWORD $0xeb0b009ff9001be2
DWORD $0x9a8b309ab90053f6
DWORD $0xb9002ff791000dab
DWORD $0x54001803eb0b034b
DWORD $0x8b2a21aad37ff92d
DWORD $0x54001783eb0a017f
DWORD $0x340004292a1603e4
DWORD $0x1a9f16c47100019f
DWORD $0x540003607100051f
DWORD $0x5280002434000388
DWORD $0xf10011cf1400001a
DWORD $0x5280008054000062
DWORD $0x8b1d026e17ffff93
DWORD $0x39400dd0394009cd
DWORD $0xaa1009add376d5ad
DWORD $0x54000062eb0d01ff
DWORD $0x17ffff8a528000c0
DWORD $0x8b0d03ad794001ce
DWORD $0x12146dcf910011bd
DWORD $0x529bd7cf710041ff
DWORD $0x6b0f01df1a9f17f6
DWORD $0x17ffffbf1a9f16d7
DWORD $0x2a1f03e437001404
DWORD $0x910203e8f94033fb
DWORD $0x8b0e026511004222
DWORD $0xaa1503e0cb0e03a6
DWORD $0x2a1603e3aa1a03e1
DWORD $0xa90447eeaa1b03e7
DWORD $0xf9000be8b90057e4
DWORD $0xaa1b03e897ffc6b4
DWORD $0x3948891436001140
DWORD $0xb94057e9b4000ab4
DWORD $0x3400050991084116
DWORD $0x1400000c910203f9
DWORD $0x2a1f03e18b1702a0
DWORD $0x9400155daa1b03e2
DWORD $0xaa1803e1f94033e8
DWORD $0xf100069429006f37
DWORD $0x91002339910006d6
DWORD $0xb9400329540008a0
DWORD $0x394002db35ffff69
DWORD $0x8b1b02f891000837
DWORD $0x54000e23eb18035f
DWORD $0x8b0102aa385f02c9
DWORD $0x390001493900055b
DWORD $0x7100077f34fffd5b
DWORD $0x38376abf54000061
DWORD $0x71000b7f17ffffeb
DWORD $0x78376abf54000068
DWORD $0x71000f7f17ffffe7
DWORD $0x8b1702a954fffc01
DWORD $0x3900093f7900013f
DWORD $0x910203f917ffffe1
DWORD $0x8b1702a01400000c
DWORD $0xaa1b03e22a1f03e1
DWORD $0xf94033e894001536
DWORD $0x29006f378b1b02e1
DWORD $0x910006d6f1000694
DWORD $0x540003c091002339
DWORD $0x35ffff69b9400329
DWORD $0x8b1b0029394002db
DWORD $0xeb09035f91000929
DWORD $0x385f02c954000943
DWORD $0x53047d2a91000437
DWORD $0xb0903692a091149
DWORD $0x38216aa951000529
DWORD $0x7100077f34fffcfb
DWORD $0x38376abf54000061
DWORD $0x71000f7f17ffffe8
DWORD $0x78376abf54000062
DWORD $0x71000f7f17ffffe4
DWORD $0x8b1702a954fffba1
DWORD $0x3900093f7900013f
DWORD $0x91000c2917ffffde
DWORD $0xeb1b035f927ef53b
DWORD $0xa9442bf654000603
DWORD $0x54000180eb010369
DWORD $0x540000a0f100093f
DWORD $0x540000a1f100053f
DWORD $0x1400000638216abf
DWORD $0x1400000478216abf
DWORD $0x3900093f8b0102a9
DWORD $0x7100855f7900013f
DWORD $0x54000103cb160374
DWORD $0xaa1303e1aa1503e0
DWORD $0x97ffc81aaa1603e2
DWORD $0x294a33e9a945a3eb
DWORD $0x294a33e91400000b
DWORD $0x7100455f3dc00260
DWORD $0x540000633d8002a0
DWORD $0x3d8006a03dc00660
DWORD $0x3cea6a60f9402feb
DWORD $0x6b09019f3caa6aa0
DWORD $0x7100019f540000e0
DWORD $0x1284282a52800209
DWORD $0x8b1602aa1a890149
DWORD $0x531a6689781fc149
DWORD $0x330a46898b1602aa
DWORD $0x14000037781fe149
DWORD $0xf9401be239488d08
DWORD $0x7100051fb94053f6
DWORD $0x540003a1b9402ff7
DWORD $0xf94033f6390467f6
DWORD $0xa9100bf3f9401fe4
DWORD $0x910403e1910483e0
DWORD $0xaa1603e2910203e5
DWORD $0xf9008bfdaa1503e3
DWORD $0x97ffc96e390463f7
DWORD $0xf94097fb394483e9
DWORD $0xf9402febaa1603e8
DWORD $0x92401f6934000409
DWORD $0x3944c7ea3944c3e8
DWORD $0xf9409fe9f90037e9
DWORD $0x3901c3e89101a3e0
DWORD $0xf9003fe93901c7ea
DWORD $0x17fffec497ffc55b
DWORD $0xf9401fe5f94033e3
DWORD $0xa9158bf39105e3e0
DWORD $0xaa0203f4910563e1
DWORD $0x910203e6910503e2
DWORD $0xf900b7fdaa1503e4
DWORD $0xa914ffff3905c7f6
DWORD $0x97ffc7fef900a3ff
DWORD $0xaa1403e23945e3e8
DWORD $0x54fffa617100051f
DWORD $0xf940c3fba945a3eb
DWORD $0x394889086f00e400
DWORD $0xf8047d3faa0b03e9
DWORD $0xf900053faa0903ea
DWORD $0x3c9ed1203c9bdd40
DWORD $0x3c9cd1203c9dd120
DWORD $0x7100211f34000308
DWORD $0x8b08016c54000123
DWORD $0xeb0c015f91011d8c
DWORD $0x8b08096a54000302
DWORD $0xeb0a013f9100114a
DWORD $0x2a1f03ec54000282
DWORD $0x910203edaa1f03ea
DWORD $0xf86a79ad8b0a092e
DWORD $0xb81bd1cdd360fdaf
DWORD $0x9100054a382a692f
DWORD $0xb0f018ceb0a011f
DWORD $0x1400000254fffee1
DWORD $0x2a1f03e02a1f03ec
DWORD $0x7900896cb900017b
DWORD $0x17fffe8839011968
DWORD $0x540000827100811f
DWORD $0x2a1f03ecaa1f03ea
DWORD $0x910203ea1400015c
DWORD $0xad43c540ad4687e2
DWORD $0xad458fe43dc023e7
DWORD $0xad4497e63dc0355a
DWORD $0x4e8058204e801832
DWORD $0x4e821870ad44d556
DWORD $0x4e8458b3ad45e157
DWORD $0x4e8658f4ad47655b
DWORD $0x4e965a3c4e825861
DWORD $0x4e975aa34e8418a4
DWORD $0x4e8618e54e9a5b1d
DWORD $0x4e961a264e995b62
DWORD $0x3c8241704e971aa7
DWORD $0x927b090a4e9a1b10
DWORD $0x4e531a814e401820
DWORD $0x4e431b833c814164
DWORD $0x3c8041654e991b64
DWORD $0x3c8441664e421ba2
DWORD $0x3c834172f100815f
DWORD $0x3c8541674e001825
DWORD $0x4e0218663c864170
DWORD $0x3c8471653c874164
DWORD $0x540024603c857166
DWORD $0xf101015f910203eb
DWORD $0xad4a1967ad481165
DWORD $0xad494973ad4b4171
DWORD $0xad4f61794e8418b6
DWORD $0xad4d157a4e8458a4
DWORD $0xad4e6d7c4e8618f4
DWORD $0xad4c757e4e901a35
DWORD $0x4e905a304e925a77
DWORD $0x4e855b474e8658e6
DWORD $0x4e9b5b884e985b3f
DWORD $0x4e9d5bd14e921a72
DWORD $0xf9402feb4e851b45
DWORD $0x4e9b1b934e571884
DWORD $0x4e5018c64e981b38
DWORD $0x4e5f19103c884176
DWORD $0x4e471a273c894172
DWORD $0x3c8d41654e9d1bd1
DWORD $0x3c8b41754e648421
DWORD $0x4e6684004e061892
DWORD $0x4e7084423c8a4174
DWORD $0x4e1018e53c8f4178
DWORD $0x3c8e41734e678463
DWORD $0x3c8671723c8c4171
DWORD $0x54001e603c877165
DWORD $0xf9402fec910203eb
DWORD $0xad511165f101815f
DWORD $0xad524171ad531967
DWORD $0xad504d744e8418b2
DWORD $0xad5715774e8458a4
DWORD $0x4e901a35ad55657a
DWORD $0x4e8618f6ad566d7c
DWORD $0x4e935a98ad54757e
DWORD $0x4e905a274e8658e6
DWORD $0x4e855aff4e995b50
DWORD $0x4e931a934e9b5b88
DWORD $0x4e991b544e9d5bd1
DWORD $0x4e851ae54e9b1b99
DWORD $0x9104118b4e441b04
DWORD $0xad0159754e4618e6
DWORD $0xad0049734e5f1907
DWORD $0x4e9d1bd14e501a30
DWORD $0x4e648421ad031579
DWORD $0x4e6684004e061885
DWORD $0x4e071a124e678442
DWORD $0xad0251714e708463
DWORD $0x3c8971923c887185
DWORD $0x910203ec540018c0
DWORD $0xad591185f102015f
DWORD $0xad5a4191ad5b1987
DWORD $0xad584d944e8418b2
DWORD $0xad5f15974e8458a4
DWORD $0x4e901a35ad5d659a
DWORD $0x4e8618f6ad5e6d9c
DWORD $0x4e935a98ad5c759e
DWORD $0x4e905a274e8658e6
DWORD $0x4e855aff4e995b50
DWORD $0x4e931a934e9b5b88
DWORD $0x4e991b544e9d5bd1
DWORD $0x4e851ae54e9b1b99
DWORD $0xf9402fec4e441b04
DWORD $0xad0559754e4618e6
DWORD $0xad0449734e5f1907
DWORD $0x4e9d1bd14e501a30
DWORD $0x4e648421ad071579
DWORD $0x4e6684004e061885
DWORD $0x4e071a124e678442
DWORD $0xad0651714e708463
DWORD $0x3c8b71923c8a7185
DWORD $0x910203ec54001340
DWORD $0x3dc10d85f102815f
DWORD $0x3dc11d843dc10986
DWORD $0x3dc115903dc11987
DWORD $0x4e8518d23dc11191
DWORD $0x3dc101943dc10593
DWORD $0x3dc13d864e8558c5
DWORD $0x3dc135993dc13997
DWORD $0x4e901a353dc12d9a
DWORD $0x3dc1319c3dc1299b
DWORD $0x3dc1259d4e8418f6
DWORD $0x4e935a983dc1219e
DWORD $0x4e905a274e8458e4
DWORD $0x4e9d5bd14e9a5b70
DWORD $0x4e995b884e865aff
DWORD $0x4e991b994e931a93
DWORD $0x4e451b054e861ae6
DWORD $0xf9402fec4e9a1b74
DWORD $0xad0959754e4418e4
DWORD $0x4e501a304e5f1907
DWORD $0xad0849734e9d1bd1
DWORD $0x4e658421ad0b1979
DWORD $0x4e6484004e0418a6
DWORD $0x4e6784424e071a12
DWORD $0xad0a51714e708463
DWORD $0x3c8d71923c8c7186
DWORD $0x910203ec54000cc0
DWORD $0x3dc14d85f103015f
DWORD $0x3dc15d843dc14986
DWORD $0x3dc155903dc15987
DWORD $0x4e8518d23dc15191
DWORD $0x3dc141943dc14593
DWORD $0x3dc17d864e8558c5
DWORD $0x3dc175993dc17997
DWORD $0x4e901a353dc16d9a
DWORD $0x3dc1719c3dc1699b
DWORD $0x3dc1659d4e8418f6
DWORD $0x4e935a983dc1619e
DWORD $0x4e905a274e8458e4
DWORD $0x4e9d5bd14e9a5b70
DWORD $0x4e995b884e865aff
DWORD $0x4e991b994e931a93
DWORD $0x4e451b054e861ae6
DWORD $0xf9402fec4e9a1b74
DWORD $0xad0d59754e4418e4
DWORD $0x4e501a304e5f1907
DWORD $0xad0c49734e9d1bd1
DWORD $0x4e658421ad0f1979
DWORD $0x4e6484004e0418a6
DWORD $0x4e6784424e071a12
DWORD $0xad0e51714e708463
DWORD $0x3c8f71923c8e7186
DWORD $0x910203ec54000640
DWORD $0x3dc189863dc18d85
DWORD $0x3dc199873dc19d84
DWORD $0x3dc191913dc19590
DWORD $0x3dc185934e8518d2
DWORD $0x4e8558c53dc18194
DWORD $0x3dc1b9973dc1bd86
DWORD $0x3dc1ad9a3dc1b599
DWORD $0x3dc1a99b4e901a35
DWORD $0x4e8418f63dc1b19c
DWORD $0x3dc1a19e3dc1a59d
DWORD $0x4e8458e44e935a98
DWORD $0x4e9a5b704e905a27
DWORD $0x4e865aff4e9d5bd1
DWORD $0x4e931a934e995b88
DWORD $0x4e861ae64e991b99
DWORD $0x4e9a1b744e451b05
DWORD $0x4e4418e4ad115975
DWORD $0x4e501a304e5f1907
DWORD $0xad1049734e9d1bd1
DWORD $0x4e658421ad131979
DWORD $0x4e6484004e0418a6
DWORD $0x4e6784424e071a12
DWORD $0xad1251714e708463
DWORD $0x3c8131723c803166
DWORD $0x4e6084404e618461
DWORD $0x4e608420eb08015f
DWORD $0x1e26000c4e71b800
DWORD $0xf9402feb54000061
DWORD $0xf9402feb17fffe9f
DWORD $0xb4ffd20d927d050d
DWORD $0xaa0a03ed6f00e400
DWORD $0x927d110a8b0a096e
DWORD $0x910011ce8b0b01af
DWORD $0x910203ec4e021d80
DWORD $0xcb0a01ac8b0d0d8b
DWORD $0xad41056291011ded
	MOVD $rtp_wire_constants<>+432(SB), R15
DWORD $0x3dc001e7acc20d64
DWORD $0x4e815845b100218c
DWORD $0x4e8118416f600433
DWORD $0x6f6004524e835886
DWORD $0x6f6004714e831882
DWORD $0x4e4518c56f600490
DWORD $0x4e076206ac8105c2
DWORD $0xfc0085a64e658400
DWORD $0x4e71b80054fffda1
DWORD $0xeb08015ff9402feb
DWORD $0x54ffcd811e26000c
WORD $0x17fffe77
	ADD $496, RSP
	// 87592: rtpw_receiver_receive
DWORD $0xb100051ff9400008
DWORD $0x3940600954000220
DWORD $0x540001c17100053f
DWORD $0x12003c2991000508
DWORD $0x540001416b28213f
DWORD $0xf9000008a940a40a
DWORD $0xd37ff94a93cafd2b
DWORD $0xa900ac09b2400549
DWORD $0xf90000482a1f03e0
DWORD $0x17ffd2ffd65f03c0
	// 87672: rtpw_receive_many
DWORD $0xf100001f52820009
DWORD $0xf100005f9a9f0128
DWORD $0xb40006439a9f0129
WORD $0xf81c03fe
	SUB $64, RSP
DWORD $0xa90257f6f9000bfe
DWORD $0x8b020129a9034ff4
DWORD $0xaa0103f4aa0303f3
DWORD $0x910051368b080015
DWORD $0x5280012814000005
DWORD $0xf1000673b80186c8
DWORD $0xf85ec2c8540003e0
DWORD $0x54ffff49eb08029f
DWORD $0x785fc2c18b0816a0
DWORD $0x39406008f9400009
DWORD $0x7a411900b100053f
DWORD $0x540001e1d10032c8
DWORD $0x6b29203f91000529
DWORD $0xa940ac0c54000181
DWORD $0x93ccfd6af9000009
DWORD $0xb240058bd37ff98c
DWORD $0xf9000109a900a80b
DWORD $0xf1000673b80186df
DWORD $0x1400000654fffd21
DWORD $0x97ffd2cfd10032c2
DWORD $0xf1000673b80186c0
DWORD $0xa9434ff454fffc61
DWORD $0xf9400bfea94257f6
	ADD $64, RSP
WORD $0xd65f03c0
	// 87896: rtpw_wide_receiver_receive
DWORD $0xf100003f52820008
DWORD $0x9a9f0109d100044a
DWORD $0x54000468f107fd5f
DWORD $0xf94000083940200a
DWORD $0x3400042a8b090021
DWORD $0x13003d2a4b080069
DWORD $0x3140215f8b29210b
DWORD $0xfa4009409271010a
DWORD $0x9a8a03ea929fffea
DWORD $0x8b0b014a7211013f
DWORD $0xca0800699a8a0163
DWORD $0x540002a8f100fd3f
DWORD $0x54000269eb08007f
DWORD $0xf100053fcb080069
DWORD $0xf100405f54000201
DWORD $0xd343fd09540001e1
DWORD $0x9ac821485280002a
DWORD $0xd3462469927d0d2b
DWORD $0xaa080148f86b682a
DWORD $0x14000011f82b6828
DWORD $0xd65f03c052800120
DWORD $0xaa0803e3b3403c68
DWORD $0xd346fd0917ffd357
DWORD $0x9ac2092ad346fc6b
DWORD $0x9b02a54a9ac2096c
DWORD $0x5280002b9b02ad89
DWORD $0xf86a782b9ac82168
DWORD $0xf82a7828aa080168
DWORD $0xf869782b5280002a
DWORD $0xaa0c016b9ac3214c
DWORD $0xf9000003f829782b
DWORD $0x2a1f03e03900200a
DWORD $0xd65f03c0f9000083
	// 88160: rtpw_wide_receiver_record
DWORD $0x52820008f100003f
DWORD $0x9a9f0108d1000449
DWORD $0x54000248f107fd3f
WORD $0xf81c03fe
	SUB $64, RSP
DWORD $0xa90257f6f9000bfe
DWORD $0x39402009a9034ff4
DWORD $0x340001a98b080033
DWORD $0xeb030109f9400008
DWORD $0x5280014054000381
DWORD $0xa94257f6a9434ff4
WORD $0xf9400bfe
	ADD $64, RSP
DWORD $0x52800120d65f03c0
WORD $0xd65f03c0
	SUB $64, RSP
DWORD $0xaa1303e0aa0003f4
DWORD $0xaa0303e2aa0203e1
DWORD $0x97ffd2baaa0303f3
DWORD $0xaa1403e0aa1303e3
DWORD $0xf900000352800029
DWORD $0x2a1f03e039002009
DWORD $0xa94257f6a9434ff4
WORD $0xf9400bfe
	ADD $64, RSP
WORD $0xd65f03c0
	SUB $64, RSP
DWORD $0xf100405f540000a2
DWORD $0xd346250954000121
DWORD $0xeb49185f1400000a
DWORD $0xf100405f54fffbe9
DWORD $0xd346246954000601
DWORD $0xd346fd0914000031
DWORD $0x9b02a5499ac2092a
DWORD $0xf8697a6c5280002a
DWORD $0xeb03010a9ac8214b
DWORD $0xf8297a6baa0b018b
DWORD $0xcb08006954000242
DWORD $0x54000163f100093f
DWORD $0x91000502aa0203f4
DWORD $0xaa1303e0aa0003f6
DWORD $0xaa0303f5aa1403e1
DWORD $0xaa1403e297ffd2b3
DWORD $0xaa1603e0aa1503e3
DWORD $0x54000181f100405f
DWORD $0x1400000dd3462468
DWORD $0x54000409eb4a185f
DWORD $0xd346fc6a52800029
DWORD $0x9ac32129f100405f
DWORD $0xd37d0d4a54000261
DWORD $0xd346fc6814000014
DWORD $0x9b02a1289ac20909
DWORD $0xf8687a6a52800029
DWORD $0xaa0901499ac32129
DWORD $0x17ffffbff8287a69
DWORD $0x9ac2092ad346fc69
DWORD $0xf8697a699b02a549
DWORD $0x3707f5099ac32529
DWORD $0x9ac2094b17ffffc3
DWORD $0xd37df14a9b02a96a
DWORD $0xea09017ff86a6a6b
DWORD $0xaa09016954000061
DWORD $0xaa0803e3f82a6a69
WORD $0x17ffffae
	ADD $64, RSP
	// 88632: rtpw_wide_restarting_receive
DWORD $0xf100003f52820008
DWORD $0x9a9f0109d100044a
DWORD $0x540005c8f107fd5f
WORD $0xf81b03fe
	SUB $80, RSP
DWORD $0xa9025ff8f9000bfe
DWORD $0xa9044ff4a90357f6
DWORD $0xd37ae44a79401008
DWORD $0x7940140d5281770b
DWORD $0x7940181639404015
DWORD $0x8b0900337100011f
DWORD $0xf12ee15f1a88016c
DWORD $0x9a8b814a39403c08
DWORD $0x9a8d014b710001bf
DWORD $0xf940000934000395
DWORD $0x8b2a21344b09006a
DWORD $0x13003d4a3678010a
DWORD $0x9271012a3140215f
DWORD $0x929fffeafa400940
DWORD $0x8b1401549a8a03ea
DWORD $0x1a9f27edeb14012a
DWORD $0x1a9f95adeb0a017f
DWORD $0xfa4c2160eb09028b
DWORD $0x3600032d54000342
DWORD $0x54000881eb09029f
DWORD $0x140000372a1f03e8
	ADD $80, RSP
WORD $0x52800120
WORD $0xd65f03c0
	SUB $80, RSP
DWORD $0x7100013f39403809
DWORD $0x4b0a012a1a9f07ea
DWORD $0x6b2322df52800029
DWORD $0x6b2a011f540001e1
DWORD $0xd370fd2a54000063
DWORD $0x11000509b400020a
DWORD $0x52801fe97103fd3f
DWORD $0x140000221a882528
DWORD $0x5280002ad350fd29
DWORD $0x6b2322df91000929
DWORD $0x72001d5f54fffe60
DWORD $0x5400034152800028
DWORD $0xb500030ad370fd2a
DWORD $0xaa0003f8b370bd23
DWORD $0xaa0203e1aa1303e0
DWORD $0xaa0303e2aa0403f7
DWORD $0x97ffd20caa0303f4
DWORD $0x5280200834000435
DWORD $0x7800f30879001b16
DWORD $0xf900031452800188
DWORD $0xa9444ff4f90002f4
DWORD $0xa9425ff8a94357f6
WORD $0xf9400bfe
	ADD $80, RSP
DWORD $0xd65f03c02a0803e0
	SUB $80, RSP
WORD $0x11000476
DWORD $0x5280014839003c08
DWORD $0xa9444ff479001816
DWORD $0xa9425ff8a94357f6
WORD $0xf9400bfe
	ADD $80, RSP
DWORD $0xd65f03c02a0803e0
	SUB $80, RSP
WORD $0xeb14013f
DWORD $0xf100405f54000122
DWORD $0xd3462528540001a1
DWORD $0xaa1403e91400000e
DWORD $0xaa1703e4aa1803e0
DWORD $0xeb4a185f14000044
DWORD $0xf100405f54fff649
DWORD $0xd346268854000621
DWORD $0xd346fd2814000032
DWORD $0x9b02a1889ac2090c
DWORD $0xf8687a6d5280002c
DWORD $0x9ac9218ceb14013f
DWORD $0xf8287a6caa0c01ac
DWORD $0xf100097f54000242
DWORD $0xaa0203f554000183
DWORD $0xaa0003f791000522
DWORD $0xaa1503e1aa1303e0
DWORD $0xaa0403f8aa1403e3
DWORD $0xaa1503e297ffd1f1
DWORD $0xaa1703e0aa1803e4
DWORD $0x54000181f100405f
DWORD $0x1400000dd3462688
DWORD $0x54000429eb4a185f
DWORD $0xd346fe8a52800028
DWORD $0x9ad42108f100405f
DWORD $0xd37d0d4a54000281
DWORD $0xd346fe8814000015
DWORD $0x9b02a1289ac20909
DWORD $0xf8687a6a52800029
DWORD $0xaa0901499ad42129
DWORD $0xaa1403e9f8287a69
DWORD $0xd346fe8814000010
DWORD $0x9b02a1889ac2090c
DWORD $0x9ad42508f8687a68
DWORD $0x17ffffbe3707ef48
DWORD $0x9b02a96a9ac2094b
DWORD $0xf86a6a6bd37df14a
DWORD $0x54000061ea08017f
DWORD $0xf82a6a68aa080168
DWORD $0x2a1f03e85280200a
DWORD $0x7800f00a79001816
DWORD $0xf9000094f9000009
DWORD $0xa94357f6a9444ff4
DWORD $0xf9400bfea9425ff8
	ADD $80, RSP
WORD $0x2a0803e0
WORD $0xd65f03c0
	// 89452: rtpw_read_mixer_level
WORD $0xaa0003e8
DWORD $0x52800120eb03005f
DWORD $0xeb01007f54000189
DWORD $0xf100011f54000142
DWORD $0x2a1f03e052820009
DWORD $0x8b0901089a9f0129
DWORD $0x1200190838636908
DWORD $0x390000884b0803e8
WORD $0xd65f03c0
	// 89516: rtpw_read_ntp_56
WORD $0xf1001c3f
DWORD $0xaa0003e854000241
DWORD $0x2a1f03e052820009
DWORD $0x9a9f0129f100011f
DWORD $0x394001098b090108
DWORD $0xd378dd293940050a
DWORD $0x3940090aaa0a4129
DWORD $0xaa0a6129b8403108
DWORD $0xdac00d08aa088128
DWORD $0xd65f03c0f9000048
DWORD $0xd65f03c052800120
	// 89600: rtpw_read_ntp_64
DWORD $0x54000141f100203f
DWORD $0x52820009aa0003e8
DWORD $0xf100011f2a1f03e0
DWORD $0xf86969089a9f0129
DWORD $0xf9000048dac00d08
DWORD $0x52800120d65f03c0
WORD $0xd65f03c0
	// 89652: rtpw_read_send_time
WORD $0xf1000c3f
DWORD $0xaa0003e854000201
DWORD $0x2a1f03e052820009
DWORD $0x9a9f0129f100011f
DWORD $0x394001098b090108
DWORD $0x394009083940050a
DWORD $0x2a0a412953185d29
DWORD $0x5ac009082a086128
DWORD $0xd65f03c0b9000048
DWORD $0xd65f03c052800120
	// 89728: rtpw_read_transmission_offset
DWORD $0x54000261f1000c3f
DWORD $0x52820009aa0003e8
DWORD $0xf100011f2a1f03e0
DWORD $0x8b0901089a9f0129
DWORD $0x3940050a39400109
DWORD $0x53185d2939400908
DWORD $0x2a0861282a0a4129
DWORD $0x32081d095ac00908
DWORD $0x1a8931087160011f
DWORD $0xd65f03c0b9000048
DWORD $0xd65f03c052800120
	// 89816: rtpw_write_timing
WORD $0xf81c03fe
	SUB $64, RSP
DWORD $0xa9034ff4f90013fe
DWORD $0x79400005aa0303f3
DWORD $0x7940080379400404
DWORD $0x5282000879400c10
DWORD $0x7940140d7940100f
DWORD $0x39403406f100003f
DWORD $0x5ac004a99a9f0108
DWORD $0x5ac0046b5ac0048a
DWORD $0x5ac005ee5ac0060c
DWORD $0x390073ff5ac005b1
DWORD $0x53087e2634000226
DWORD $0x53083dd12a1103ed
DWORD $0x53083d8e2a0e03ef
DWORD $0x53083d6c2a0c03f0
DWORD $0x53083d4b2a0b03e3
DWORD $0x53083d2a2a0a03e4
DWORD $0x394030092a0903e5
DWORD $0x390073e6528001b4
DWORD $0x12001ca514000008
DWORD $0x12001c6312001c84
DWORD $0x12001def12001e10
DWORD $0x5280019412001dad
DWORD $0x390043e9eb14005f
DWORD $0x39004bea390047e5
DWORD $0x390053eb39004fe4
DWORD $0x39005bec390057e3
DWORD $0x390063ee39005ff0
DWORD $0x39006bf1390067ef
DWORD $0x540000e239006fed
DWORD $0xa9434ff452800100
WORD $0xf94013fe
	ADD $64, RSP
WORD $0xd65f03c0
	SUB $64, RSP
DWORD $0x910043e18b080020
DWORD $0x94001085aa1403e2
DWORD $0xf90002742a1f03e0
DWORD $0xf94013fea9434ff4
	ADD $64, RSP
WORD $0xd65f03c0
	// 90120: rtpw_packet_parse
DWORD $0xf100001f52820008
DWORD $0xf100303f9a9f0108
DWORD $0x8b08000854000c43
DWORD $0x3101053f39c00109
DWORD $0x92401d2b54000c0c
DWORD $0x91003149d37e0d6a
DWORD $0x54000ba3eb09002c
DWORD $0x3900dc5f3720016b
DWORD $0xa901fc497900705f
DWORD $0xcb09002af9000049
DWORD $0x3728058b3940010b
DWORD $0xaa0a03eb52800029
DWORD $0xf100118c14000034
DWORD $0x8b09010b54000a43
DWORD $0x39400d6e3940096d
DWORD $0xaa0e09add376d5ad
DWORD $0x540009a3eb0d019f
DWORD $0x7940016b8b0d0129
DWORD $0x910011291100414a
DWORD $0xcb0a012e529bd7cc
DWORD $0x6b0c017f5ac0056d
DWORD $0x12146d6aa901b84a
DWORD $0x540001607900704d
DWORD $0x7100417f12003d4b
DWORD $0x5280006a54000100
DWORD $0xf90000493900dc4a
DWORD $0x3940010bcb09002a
DWORD $0x1400000a362ffc0b
DWORD $0x7100415f12003d4a
DWORD $0x1a8a154a5280002a
DWORD $0xf90000493900dc4a
DWORD $0x3940010bcb09002a
DWORD $0xeb09003f362ffacb
DWORD $0xaa1f03eb54000081
DWORD $0x1400000752800029
DWORD $0x385ff1298b010109
DWORD $0x9a8933ebeb090149
DWORD $0x9a9f216b1a9f37e9
DWORD $0x2a1f03e0a900ac4a
DWORD $0xb94005093900d849
DWORD $0xb90028495ac00929
DWORD $0x5ac00929b9400909
DWORD $0x79400509b9002c49
DWORD $0x53107d295ac00929
DWORD $0x3940050979006049
DWORD $0x3900c84912001929
DWORD $0x12000d2939400109
DWORD $0x394005093900cc49
DWORD $0x3900d04953077d29
DWORD $0x5305150839400108
DWORD $0xd65f03c03900d448
DWORD $0x17ffc0c42a1f03e0
DWORD $0x17ffc0c252800020
DWORD $0x17ffc0c052800040
DWORD $0x17ffc0be52800060
DWORD $0x17ffc0bc52800080
	// 90568: rtpw_packet_parse_many
DWORD $0xf100001f52820009
DWORD $0xf100005f9a9f0128
DWORD $0xb40013a39a9f0129
WORD $0xf81b03fe
	SUB $80, RSP
DWORD $0xa9025ff8f9000bfe
DWORD $0xa9044ff4a90357f6
DWORD $0xaa0303f38b020129
DWORD $0x8b080015aa0103f4
DWORD $0x140000079100c136
DWORD $0x390092df52800128
DWORD $0xf1000673b90022c8
DWORD $0x540010c0910162d6
DWORD $0xeb080289f85d02c8
DWORD $0xf85d82d854ffff03
DWORD $0x54fffea3eb18013f
DWORD $0x8b0802b7f100331f
DWORD $0x39c002e854000d83
DWORD $0x54000e0c3101051f
DWORD $0xd37e0d4992401d0a
DWORD $0xeb08030b91003128
DWORD $0x3720016a54000da3
DWORD $0x790032df39005edf
DWORD $0xf81e02c8a93ffec8
DWORD $0x394002eacb080309
DWORD $0x528000283728058a
DWORD $0x14000034aa0903ea
DWORD $0x54000c43f100116b
DWORD $0x3940094c8b0802ea
DWORD $0xd376d58c39400d4d
DWORD $0xeb0c017faa0d098c
DWORD $0x8b0c010854000ba3
DWORD $0x110041297940014a
DWORD $0x529bd7cb91001108
DWORD $0x5ac0054ccb09010d
DWORD $0xa93fb6c96b0b015f
DWORD $0x790032cc12146d49
DWORD $0x12003d2a54000160
DWORD $0x540001007100415f
DWORD $0x39005ec952800069
DWORD $0xcb080309f81e02c8
DWORD $0x362ffc0a394002ea
DWORD $0x12003d291400000a
DWORD $0x528000297100413f
DWORD $0x39005ec91a891529
DWORD $0xcb080309f81e02c8
DWORD $0x362ffaca394002ea
DWORD $0x54000081eb08031f
DWORD $0x52800028aa1f03ea
DWORD $0x8b1802e814000007
DWORD $0xeb080128385ff108
DWORD $0x1a9f37e89a8833ea
DWORD $0xa93eaac99a9f214a
DWORD $0xb94006e839005ac8
DWORD $0xb9000ac85ac00908
DWORD $0x5ac00908b9400ae8
DWORD $0x794006e8b9000ec8
DWORD $0x53107d085ac00908
DWORD $0x394006e8790022c8
DWORD $0x39004ac812001908
DWORD $0x12000d08394002e8
DWORD $0x394006e839004ec8
DWORD $0x390052c853077d08
DWORD $0xb90022df394002e8
DWORD $0x390056c853051508
DWORD $0x394006e939c002e8
DWORD $0x121b09283101011f
DWORD $0x7a49b10052801809
DWORD $0x390092c81a9f17e8
DWORD $0x910162d6f1000673
DWORD $0x1400001254fff1c1
DWORD $0x97ffc02e2a1f03e0
DWORD $0xf1000b1f2a1f03e8
DWORD $0x54fffde2b90022c0
DWORD $0x5280002017fffff5
DWORD $0x5280004014000006
DWORD $0x5280006014000004
DWORD $0x5280008014000002
DWORD $0xb90022c097ffc021
DWORD $0xa9444ff417ffffe4
DWORD $0xa9425ff8a94357f6
WORD $0xf9400bfe
	ADD $80, RSP
WORD $0xd65f03c0
	// 91220: rtpw_read
WORD $0x52820008
DWORD $0x9a9f0108f100001f
DWORD $0x8b080000f100303f
DWORD $0x39c00008540013c3
DWORD $0x540013ac3101051f
DWORD $0xd37e0d2892401d09
DWORD $0xeb08002a91003108
DWORD $0xaa0303e454001343
DWORD $0x2a1f03e937200129
DWORD $0x3940040a2a1f03e3
DWORD $0x7103015f121b094a
DWORD $0x5280022054000341
DWORD $0xf100114bd65f03c0
DWORD $0x8b08000a54001203
DWORD $0x39400d4c39400949
DWORD $0xaa0c0929d376d529
DWORD $0x54001163eb09017f
DWORD $0x529bd7cb7940014a
DWORD $0x910011088b090108
DWORD $0x12146d4a6b0b015f
DWORD $0x7100415f1a9f17eb
DWORD $0x1a9f15691a9f17e3
DWORD $0x121b094a3940040a
DWORD $0x54fffd007103015f
DWORD $0x6f00e400f9000088
DWORD $0x5ac0094ab940040a
DWORD $0xb940080ab900088a
DWORD $0xb9000c8a5ac0094a
DWORD $0x3940000baa0403ea
DWORD $0x3c82c1403c810d40
DWORD $0xad00814092400d6c
DWORD $0xaa1f03eb3400014c
DWORD $0xb86b79ae9100300d
DWORD $0xb82b794e5ac009ce
DWORD $0xeb0b019f9100056b
DWORD $0x1400000254ffff61
DWORD $0x39013c8b2a1f03eb
DWORD $0x5ac0094a7940040a
DWORD $0x7900988a53107d4a
DWORD $0x1200194a3940040a
DWORD $0x3940040a3901388a
DWORD $0x3901408a53077d4a
DWORD $0x5305154a3940000a
DWORD $0x3940000a3901448a
DWORD $0x3901488a5304114a
DWORD $0x3940000bcb08002a
DWORD $0x5280002b372800eb
DWORD $0x3903ec8bf900708a
DWORD $0x3720012a3940000a
DWORD $0xeb08003f14000030
DWORD $0x5280002b54000481
DWORD $0x3903ec8bf900709f
DWORD $0x3620052a3940000a
DWORD $0x8b0a000bd37e0d4a
DWORD $0x7940196b1100414a
DWORD $0xa90ea08acb0a0108
DWORD $0x53107d6b5ac0096b
DWORD $0x360004697901f08b
WORD $0xf81e03fe
	SUB $32, RSP
DWORD $0x6f00e400f9000bfe
DWORD $0x8b0a000111000469
DWORD $0xaa0803e2aa0203e0
DWORD $0x390288893c858c80
DWORD $0xad018080ad008080
DWORD $0x3d801c80ad028080
DWORD $0x97ffa933f900409f
DWORD $0xf9400bfe2a1f03e0
	ADD $32, RSP
WORD $0xd65f03c0
DWORD $0x385ff16b8b01000b
DWORD $0x9a8a33eaeb0b014a
DWORD $0x9a9f214a1a9f37eb
DWORD $0x3903ec8bf900708a
DWORD $0x3727fb2a3940000a
DWORD $0x7901f09f3903e89f
DWORD $0x14000003a90efc88
DWORD $0x3903e88852800068
DWORD $0x2a1f03e06f00e400
DWORD $0x3c8c8080f9006c9f
DWORD $0x3c8a80803c8b8080
DWORD $0x3c8880803c898080
DWORD $0x3c8680803c878080
DWORD $0xd65f03c03c858080
DWORD $0x17ffd0152a1f03e2
DWORD $0x17ffd01352800022
DWORD $0x17ffd01152800042
DWORD $0x17ffd00f52800062
DWORD $0x17ffd00d52800082
	// 91912: rtpw_read_fixed_part
DWORD $0x52820008f100001f
DWORD $0xf100303f9a9f0108
DWORD $0x8b08000954000aa3
DWORD $0x3101051f39c00128
DWORD $0x92401d0854000a6c
DWORD $0x910031cad37e0d0e
DWORD $0x54000a03eb0a002c
DWORD $0x2a1f03eb37200148
DWORD $0x721c010f2a1f03ed
DWORD $0x121b0111110041ce
DWORD $0x372803c89a8e014e
DWORD $0x1400002752800030
DWORD $0x540008c3f100118c
DWORD $0x3940096d8b0a012b
DWORD $0xd376d5ad39400d6f
DWORD $0xeb0d019faa0f09ad
DWORD $0x7940016c54000823
DWORD $0x8b0d014a529bd7cb
DWORD $0x12146d8d9100114a
DWORD $0x5280006b6b0b019f
DWORD $0x710041bf1a9f156b
DWORD $0x1a8b01ab5280004d
DWORD $0xcb0a002c5ac0058d
DWORD $0x110041ce721c010f
DWORD $0x9a8e014e121b0111
DWORD $0xeb0a003f362ffc88
DWORD $0xaa1f03ec54000081
DWORD $0x1400000752800030
DWORD $0x385ff2108b010130
DWORD $0x9a8c33eceb10018c
DWORD $0x9a9f218c1a9f37f0
DWORD $0x39400521fc404120
DWORD $0x7940052952800044
DWORD $0x53057e3153047def
DWORD $0x390000442e200800
DWORD $0x5ac0092953077c24
DWORD $0x3900084f2a1f03e0
DWORD $0x1200182f53107d29
DWORD $0x3900045112000d08
DWORD $0x3900104f39000c44
DWORD $0xfd00044079000c49
DWORD $0xf900086ea900306a
DWORD $0x3900686b7900306d
DWORD $0x3900707039006c68
DWORD $0x2a1f03e0d65f03c0
DWORD $0x5280002017ffbf11
DWORD $0x5280004017ffbf0f
DWORD $0x5280006017ffbf0d
DWORD $0x5280008017ffbf0b
WORD $0x17ffbf09
	// 92308: rtpw_kind_of_uri
WORD $0xf81b03fe
	SUB $80, RSP
WORD $0xa90357fe
DWORD $0xf100001fa9044ff4
DWORD $0xaa0003e852820009
DWORD $0xaa0103e29a9f0129
DWORD $0x8b090101910063e0
DWORD $0xf90017ffa901ffff
DWORD $0x394063e897ffae0a
DWORD $0x2a1f03e834000108
DWORD $0x2a0803e0a9444ff4
WORD $0xa94357fe
	ADD $80, RSP
WORD $0xd65f03c0
	SUB $80, RSP
DWORD $0xd1006a8af94017f4
DWORD $0x54fffee8f100f55f
	MOVD $rtp_wire_constants<>+728(SB), R11
DWORD $0xf94013f39100016b
DWORD $0x786a796d10fffe4c
WORD $0x8b0d098c
	MOVD $rtp_wire_constants<>+2227(SB), R9
WORD $0x91000129
	MOVD $rtp_wire_constants<>+1449(SB), R0
DWORD $0x5280003591000000
WORD $0xd61f0180
	MOVD $rtp_wire_constants<>+1587(SB), R0
WORD $0x91000000
DWORD $0xaa1403e152800095
DWORD $0xaa1403e3aa1303e2
DWORD $0x370010e097ffcf89
WORD $0x14000096
	MOVD $rtp_wire_constants<>+1744(SB), R0
WORD $0x91000000
DWORD $0xaa1403e1528000f5
DWORD $0xaa1403e3aa1303e2
DWORD $0x37000fa097ffcf7f
WORD $0x1400008c
	MOVD $rtp_wire_constants<>+1807(SB), R0
WORD $0x91000000
DWORD $0xaa1403e152800115
DWORD $0xaa1403e3aa1303e2
DWORD $0x37000e6097ffcf75
WORD $0x14000082
	MOVD $rtp_wire_constants<>+1553(SB), R0
WORD $0x91000000
DWORD $0xaa1403e152800075
DWORD $0xaa1403e3aa1303e2
DWORD $0x37000d2097ffcf6b
WORD $0x14000078
	MOVD $rtp_wire_constants<>+1998(SB), R0
WORD $0x91000000
DWORD $0xaa1403e152800195
DWORD $0xaa1403e3aa1303e2
DWORD $0x37000be097ffcf61
WORD $0x1400006e
	MOVD $rtp_wire_constants<>+1963(SB), R0
WORD $0x91000000
DWORD $0xaa1403e152800175
DWORD $0xaa1403e3aa1303e2
DWORD $0x37000aa097ffcf57
WORD $0x14000064
	MOVD $rtp_wire_constants<>+448(SB), R8
WORD $0xad400660
WORD $0x3dc00102
	MOVD $rtp_wire_constants<>+464(SB), R8
WORD $0x3dc00103
	MOVD $rtp_wire_constants<>+480(SB), R8
DWORD $0x3dc001056e228c02
	MOVD $rtp_wire_constants<>+496(SB), R8
DWORD $0x3dc001066e238c23
DWORD $0x3dc00a626e205844
DWORD $0x4ee31c846e258c45
DWORD $0x4ee51c843cc2a263
DWORD $0x4ee51c846e268c65
DWORD $0x1e2600886e30a884
DWORD $0x2a1f03f537000c68
DWORD $0xa9444ff4110006a8
DWORD $0xa94357fe2a0803e0
	ADD $80, RSP
WORD $0xd65f03c0
	SUB $80, RSP
	MOVD $rtp_wire_constants<>+1510(SB), R0
WORD $0x91000000
DWORD $0xaa1403e152800055
DWORD $0xaa1403e3aa1303e2
DWORD $0x3700052097ffcf2b
WORD $0x14000038
	MOVD $rtp_wire_constants<>+1864(SB), R0
WORD $0x91000000
DWORD $0xaa1403e152800135
DWORD $0xaa1403e3aa1303e2
DWORD $0x370003e097ffcf21
WORD $0x1400002e
	MOVD $rtp_wire_constants<>+2114(SB), R0
WORD $0x91000000
DWORD $0xaa1403e1528001d5
DWORD $0xaa1403e3aa1303e2
DWORD $0x370002a097ffcf17
WORD $0x14000024
	MOVD $rtp_wire_constants<>+1613(SB), R0
WORD $0x91000000
DWORD $0xaa1403e1528000b5
DWORD $0xaa1403e3aa1303e2
DWORD $0x3700016097ffcf0d
WORD $0x1400001a
	MOVD $rtp_wire_constants<>+2058(SB), R0
WORD $0x91000000
DWORD $0xaa1403e1528001b5
DWORD $0xaa1403e3aa1303e2
DWORD $0x3600022097ffcf03
DWORD $0xa9444ff4110006a8
DWORD $0xa94357fe2a0803e0
	ADD $80, RSP
WORD $0xd65f03c0
	SUB $80, RSP
	MOVD $rtp_wire_constants<>+1909(SB), R0
WORD $0x91000000
DWORD $0xaa1403e152800155
DWORD $0xaa1403e3aa1303e2
DWORD $0x3707fe2097ffcef3
DWORD $0x2a1f03e8f100e69f
DWORD $0xf100869f5400020c
DWORD $0xf100ae9f54000660
DWORD $0x2a1f03f554ffe841
	MOVD $rtp_wire_constants<>+2184(SB), R9
DWORD $0xaa0903e091000129
DWORD $0xaa1303e2aa1403e1
DWORD $0x97ffcee2aa1403e3
DWORD $0x1400007d36000b60
DWORD $0x540009c0f101069f
DWORD $0x54ffe661f100ea9f
DWORD $0x3dc00a62ad400660
WORD $0x3cc2a263
	MOVD $rtp_wire_constants<>+464(SB), R8
WORD $0x3dc00104
	MOVD $rtp_wire_constants<>+448(SB), R8
DWORD $0x3dc001046e248c21
	MOVD $rtp_wire_constants<>+592(SB), R8
DWORD $0x3dc001046e248c00
	MOVD $rtp_wire_constants<>+608(SB), R8
DWORD $0x4ee01c206e205821
DWORD $0x3dc001026e248c41
DWORD $0x6e228c614ee11c00
DWORD $0x6e30a8004ee11c00
DWORD $0x36000ac81e260008
DWORD $0xa9444ff42a1f03e8
DWORD $0xa94357fe2a0803e0
	ADD $80, RSP
WORD $0xd65f03c0
	SUB $80, RSP
	MOVD $rtp_wire_constants<>+528(SB), R8
WORD $0x3dc00660
WORD $0x3dc00101
	MOVD $rtp_wire_constants<>+544(SB), R8
WORD $0x3dc00103
	MOVD $rtp_wire_constants<>+512(SB), R8
DWORD $0x3cc112616e218c02
DWORD $0x6e238c233dc00105
DWORD $0x3dc002626e205844
DWORD $0x4ee31c836e258c42
DWORD $0x6e30a8634ee21c63
DWORD $0x360006481e260068
	MOVD $rtp_wire_constants<>+560(SB), R8
WORD $0x3dc00103
	MOVD $rtp_wire_constants<>+576(SB), R8
WORD $0x6e238c00
DWORD $0x6e238c213dc00103
DWORD $0x4ee11c006e205800
DWORD $0x6e30a8004ee21c00
DWORD $0x360006881e260008
DWORD $0xa9444ff42a1f03e8
DWORD $0xa94357fe2a0803e0
	ADD $80, RSP
WORD $0xd65f03c0
	SUB $80, RSP
	MOVD $rtp_wire_constants<>+2227(SB), R9
WORD $0x91000129
DWORD $0xaa0903e052800035
DWORD $0xaa1303e2aa1403e1
DWORD $0x97ffce88aa1403e3
DWORD $0x2a1f03e837000480
DWORD $0x2a0803e0a9444ff4
WORD $0xa94357fe
	ADD $80, RSP
WORD $0xd65f03c0
	SUB $80, RSP
	MOVD $rtp_wire_constants<>+2292(SB), R9
DWORD $0x5280005591000129
DWORD $0xaa1403e1aa0903e0
DWORD $0xaa1403e3aa1303e2
DWORD $0x3607fe0097ffce77
DWORD $0x5280007514000012
DWORD $0xa9444ff4321c02a8
DWORD $0xa94357fe2a0803e0
	ADD $80, RSP
WORD $0xd65f03c0
	SUB $80, RSP
WORD $0x528000d5
DWORD $0xa9444ff4110006a8
DWORD $0xa94357fe2a0803e0
	ADD $80, RSP
WORD $0xd65f03c0
	SUB $80, RSP
WORD $0x52800095
DWORD $0xa9444ff4321c02a8
DWORD $0xa94357fe2a0803e0
	ADD $80, RSP
WORD $0xd65f03c0
	// 93704: rtpw_uri_of_kind
WORD $0xf81d03fe
	SUB $48, RSP
DWORD $0xa9024ff4f9000bfe
DWORD $0xf100003f51000408
DWORD $0x12001d0b52820009
DWORD $0x7100397f9a9f012a
DWORD $0x540001c88b0a0029
WORD $0xd37d1d08
	MOVD $rtp_wire_constants<>+2592(SB), R11
WORD $0x9100016b
DWORD $0xeb13005ff8686973
DWORD $0x5280010054000302
DWORD $0xf9400bfea9424ff4
	ADD $48, RSP
WORD $0xd65f03c0
	SUB $48, RSP
WORD $0x5100400b
DWORD $0x7100111f12001d68
DWORD $0xd37d1d6854000528
	MOVD $rtp_wire_constants<>+2712(SB), R12
DWORD $0xf86869939100018c
DWORD $0x54000502eb13005f
DWORD $0xa9424ff452800100
WORD $0xf9400bfe
	ADD $48, RSP
WORD $0xd65f03c0
	SUB $48, RSP
	MOVD $rtp_wire_table<>+0(SB), R11
DWORD $0xf86869689100016b
DWORD $0xeb13017fcb08012b
DWORD $0x8b01014d54000502
DWORD $0xf100413fcb0801a9
DWORD $0xaa1f03e954000602
DWORD $0xcb09026a8b09014b
DWORD $0x8b0b00298b090108
DWORD $0xf100054a3840150b
DWORD $0x54ffffa13800152b
DWORD $0xf90000732a1f03e0
DWORD $0xf9400bfea9424ff4
	ADD $48, RSP
WORD $0xd65f03c0
	SUB $48, RSP
WORD $0x52800160
DWORD $0xf9400bfea9424ff4
	ADD $48, RSP
WORD $0xd65f03c0
	SUB $48, RSP
	MOVD $rtp_wire_table<>+120(SB), R12
WORD $0x9100018c
DWORD $0xcb08012cf8686988
DWORD $0x540005e2eb13019f
DWORD $0xcb0801a98b01014d
DWORD $0x540006e2f100813f
DWORD $0x1400004caa1f03e9
DWORD $0xaa0803e1aa0903e0
DWORD $0xaa0303f4aa1303e2
DWORD $0x2a1f03e094000c56
DWORD $0xa9424ff4f9000293
WORD $0xf9400bfe
	ADD $48, RSP
WORD $0xd65f03c0
	SUB $48, RSP
DWORD $0x927c0a69927c0a6b
DWORD $0x910021ad9100210c
DWORD $0x6d7f8580927c0a6e
DWORD $0x9100418cf10041ce
DWORD $0x910041ad6d3f85a0
DWORD $0xeb0b027f54ffff61
DWORD $0x1200080c54fff9c0
DWORD $0x54fff8607100119f
DWORD $0x8b0b014d927e1269
DWORD $0x8b0b010bcb0b012c
DWORD $0xb840456e8b0d002d
DWORD $0xb80045aef100118c
DWORD $0xeb09027f54ffffa1
DWORD $0x17ffffbf54fff701
DWORD $0xaa0803e1aa0903e0
DWORD $0xaa0303f4aa1303e2
DWORD $0x2a1f03e094000c7a
DWORD $0xa9424ff4f9000293
WORD $0xf9400bfe
	ADD $48, RSP
WORD $0xd65f03c0
	SUB $48, RSP
DWORD $0x9100410c927b0669
DWORD $0x927b066e910041ad
DWORD $0xf10081cead7f8580
DWORD $0xad3f85a09100818c
DWORD $0x54ffff61910081ad
DWORD $0x6b2b019f121f000c
DWORD $0x927d0e6b54000161
DWORD $0xcb09016b8b09014c
DWORD $0x8b0c002c8b090109
DWORD $0xf100216bfc408520
DWORD $0x54ffffa1fc008580
DWORD $0x8b09014b927d0e69
DWORD $0x8b090108cb09026a
DWORD $0x3840150b8b0b0029
DWORD $0x3800152bf100054a
DWORD $0x17ffff9354ffffa1
	ADD $48, RSP
	// 94396: rtpw_read_color_space
WORD $0xf100001f
DWORD $0x9a9f010852820008
DWORD $0x8b080009f100703f
DWORD $0xf100103f54000240
DWORD $0x39400d2a540006e1
DWORD $0x1200054852800120
DWORD $0x5400062071000d1f
DWORD $0x71000d7f53020d4b
DWORD $0x2a1f03ec540005c0
DWORD $0x2a1f03ee2a1f03ed
DWORD $0x6f00e4002a1f03ef
DWORD $0x140000172a1f03f0
DWORD $0x5280012039400d2a
DWORD $0x71000d1f12000548
DWORD $0x53020d4b54000440
DWORD $0x540003e071000d7f
DWORD $0x79402d2e9100112c
DWORD $0xc4081807940312f
DWORD $0x794035307940292c
DWORD $0x5ac005ef5ac005ce
DWORD $0x5ac006105ac0058d
DWORD $0x2e2138025280002c
DWORD $0x4ea01c402f08a420
DWORD $0x3940092979400131
DWORD $0x2a1f03e05304154a
DWORD $0x3d8000407900204d
DWORD $0x7900284f7900244e
DWORD $0x7900305179002c50
DWORD $0x39006c4a39006849
DWORD $0x390074483900704b
DWORD $0x39007c5f3900784c
DWORD $0x52800120d65f03c0
WORD $0xd65f03c0
	// 94652: rtpw_read_frame_marking
WORD $0xf100001f
DWORD $0x9a9f010852820008
DWORD $0xf100043fb4000581
DWORD $0x540001218b08000e
DWORD $0x2a1f03ea394001cd
DWORD $0x2a1f03e92a1f03ec
DWORD $0x2a1f03eb2a1f03e8
DWORD $0x140000112a1f03ee
DWORD $0x540000c8f100083f
DWORD $0x394005c9394001cd
DWORD $0x2a1f03eb2a1f03e8
DWORD $0xf1000c3f14000007
DWORD $0x394001cd54000301
DWORD $0x5280002b394005c9
DWORD $0x53030daa394009c8
DWORD $0x5280002e120009ac
DWORD $0xe013c0d1e2701a0
DWORD $0xe020da10e003802
	MOVD $rtp_wire_constants<>+40(SB), R13
DWORD $0xfd4001a02f07b7e2
DWORD $0x2e6044202f07b7e1
DWORD $0x2f0797c02f190441
DWORD $0x340000ae6e020420
DWORD $0x140000095280002d
DWORD $0xd65f03c052800120
DWORD $0x2a1f03ea2a1f03ed
DWORD $0x2a1f03e92a1f03ec
DWORD $0x2a1f03e82a1f03eb
DWORD $0x2a1f03e00e001800
DWORD $0x3900144a3900104d
DWORD $0x39001c493900184c
DWORD $0x3900204bbd000040
DWORD $0xd65f03c039002448
	// 94912: rtpw_read_timing
DWORD $0x52820008f100001f
DWORD $0xf100343f9a9f0108
DWORD $0x540002408b08000a
DWORD $0x54000501f100303f
DWORD $0x7940054c7940014b
DWORD $0x7940094d2a1f03e8
DWORD $0x2a1f03e979400d4e
DWORD $0x794015507940114f
DWORD $0x5ac0058c5ac0056b
DWORD $0x5ac005ca5ac005ad
DWORD $0x5ac0060f5ac005ee
DWORD $0x784011481400000f
DWORD $0x7840514d78403149
DWORD $0x7840914f7840714e
DWORD $0x5ac0050b7840b150
DWORD $0x5ac005ad5ac0052c
DWORD $0x5ac005ca39400148
DWORD $0x5ac0060f5ac005ee
DWORD $0x2a1f03e052800029
DWORD $0x7900044c7900004b
DWORD $0x79000c4a7900084d
DWORD $0x7900144f7900104e
DWORD $0x3900344939003048
DWORD $0x52800120d65f03c0
WORD $0xd65f03c0
	// 95108: rtpw_left_out
WORD $0xf81403fe
	SUB $192, RSP
WORD $0xf90033fd
DWORD $0xa90867faa9076ffe
DWORD $0xa90a57f6a9095ff8
DWORD $0x39434435a90b4ff4
DWORD $0xaa0003f4aa0103f3
DWORD $0x79413668340001b5
DWORD $0x7102cd1f52800120
DWORD $0x34000108540000ac
DWORD $0x540000c07101691f
DWORD $0x7104391f1400009d
DWORD $0x7102d11f54000060
DWORD $0x3943567754001321
DWORD $0xb9407a6834000077
DWORD $0x39435a7834001288
DWORD $0xb9408a6834000078
DWORD $0x39434e6834001208
DWORD $0x39429a6934000088
DWORD $0x373811691101fd29
DWORD $0x340003d639436276
DWORD $0xaa1303e94f01e400
DWORD $0x3cca8d214f04e4a2
DWORD $0x4f07e4c44f06e4c3
WORD $0x4f07e6c5
	MOVD $rtp_wire_constants<>+128(SB), R10
WORD $0x4ea01c20
DWORD $0x4e2384224e228400
DWORD $0x6e2034804f02e7e3
DWORD $0x6e238c216e2234a2
DWORD $0x4e611c004e201c40
DWORD $0x4e211c003dc00141
DWORD $0x4e0138006e004001
DWORD $0x1e26000a4e71b800
DWORD $0x5ac0014a3210014a
DWORD $0x386a49295ac0114a
DWORD $0x3943667935000d89
DWORD $0xaa1303e934000659
DWORD $0x3400026a384b9d2a
DWORD $0x3400026a3942ea6a
DWORD $0x3400026a3942ee6a
DWORD $0x3400026a3942f26a
DWORD $0x3400026a3942f66a
DWORD $0x3400026a3942fa6a
DWORD $0x3400026a3942fe6a
DWORD $0x3400026a3943026a
DWORD $0x35000aea3943066a
DWORD $0x140000105280010a
DWORD $0x1400000eaa1f03ea
DWORD $0x1400000c5280002a
DWORD $0x1400000a5280004a
DWORD $0x140000085280006a
DWORD $0x140000065280008a
DWORD $0x14000004528000aa
DWORD $0x14000002528000ca
DWORD $0xb40001aa528000ea
DWORD $0xd100054a3840152b
DWORD $0x54ffff8071017d7f
DWORD $0x7100299f5100c16c
DWORD $0x121a796b54ffff23
DWORD $0x7100697f5101056b
DWORD $0x1400003954fffea3
DWORD $0x3400065a39436a7a
DWORD $0x384c2d2aaa1303e9
DWORD $0x39430e6a3400026a
DWORD $0x3943126a3400026a
DWORD $0x3943166a3400026a
DWORD $0x39431a6a3400026a
DWORD $0x39431e6a3400026a
DWORD $0x3943226a3400026a
DWORD $0x3943266a3400026a
DWORD $0x39432a6a3400026a
DWORD $0x5280010a3500048a
DWORD $0xaa1f03ea14000010
DWORD $0x5280002a1400000e
DWORD $0x5280004a1400000c
DWORD $0x5280006a1400000a
DWORD $0x5280008a14000008
DWORD $0x528000aa14000006
DWORD $0x528000ca14000004
DWORD $0x528000ea14000002
DWORD $0x3840152bb40001aa
DWORD $0x71017d7fd100054a
DWORD $0x5100c16c54ffff80
DWORD $0x54ffff237100299f
DWORD $0x5101056b121a796b
DWORD $0x54fffea37100697f
DWORD $0x39c13a6914000006
DWORD $0x39413e6937f80089
DWORD $0x5400016971003d3f
DWORD $0xa94b4ff452800120
DWORD $0xa94a57f6f94033fd
DWORD $0xa94867faa9495ff8
WORD $0xa9476ffe
	ADD $192, RSP
WORD $0xd65f03c0
	SUB $192, RSP
DWORD $0x340004a939414a69
DWORD $0x3dc01283ad411280
DWORD $0xad439682ad428687
DWORD $0xf9000be23dc03a91
DWORD $0xad4642864ea01c60
DWORD $0x4ea41ce44ea11ca1
DWORD $0x4ea01c20ad449683
DWORD $0x3dc02e864ea51cc5
DWORD $0x4ea61e024ea21c61
DWORD $0x3dc03e854ea51e23
DWORD $0x4ea21ca24ea41c21
DWORD $0x3dc006834ea01c60
DWORD $0x4ea31c004ea11c41
DWORD $0x6e0040014ea11c00
DWORD $0x9e6600090ea11c00
DWORD $0xd350fd2aaa498129
DWORD $0x2a4921292a0a0129
DWORD $0x5400050072001d3f
DWORD $0x14000034528001e9
DWORD $0x3943327b39432e69
DWORD $0x3943526a2a17030e
DWORD $0x3943426d39433a6b
DWORD $0x39434a6f7100013f
DWORD $0x2a08014a39435e70
DWORD $0x7100037f1a9f07e9
DWORD $0x7100015f1a9f07e8
DWORD $0x1a9f07ea39433e60
DWORD $0x1a9f07eb7100017f
DWORD $0x1a9f07ec710002bf
DWORD $0x1a9f07ed710001bf
DWORD $0x1a9f07ee710001df
DWORD $0x1a9f07ef710001ff
DWORD $0x1a9f07f17100021f
DWORD $0x1a9f07f07100033f
DWORD $0x1a9f07e17100035f
DWORD $0x1a9f07e4710002df
DWORD $0x1a9f07e37100001f
DWORD $0x3dc00280140000bd
	MOVD $rtp_wire_constants<>+128(SB), R9
DWORD $0x4e2098003dc00121
DWORD $0x6e0040014e601c20
DWORD $0x4e71b8004e013800
DWORD $0x320001291e260009
DWORD $0xdac0112992403d29
DWORD $0x39432e6cd2401529
DWORD $0x2a17030b3943327b
DWORD $0x39433a6f3943526a
DWORD $0x7100019faa1f03e1
DWORD $0x39434a7139434270
DWORD $0x2a08014c2905b3ef
DWORD $0x7100037f1a9f07ed
DWORD $0x39435e603901b3ed
DWORD $0x7100019f1a9f07ee
DWORD $0x1a9f07ec39433e7d
DWORD $0x3901a3ee710001ff
DWORD $0x710002bf1a9f07ed
DWORD $0x1a9f07ee390173ec
DWORD $0x390163ed7100021f
DWORD $0x7100017f1a9f07ec
DWORD $0x1a9f07eb2904c3f1
DWORD $0x390143ec7100023f
DWORD $0x7100001f1a9f07ed
DWORD $0x1a9f07ec390133eb
DWORD $0x390123ed7100033f
DWORD $0x7100035f1a9f07eb
DWORD $0x1a9f07ed390113ec
DWORD $0x390103eb710002df
DWORD $0x710003bf1a9f07ec
DWORD $0x1a9f07eb390153ee
DWORD $0x7a4019447100011f
DWORD $0x1a9f07e83900f3ed
DWORD $0x3900d3eb3900e3ec
DWORD $0x14000004290383e8
DWORD $0x9101a3e83400007b
DWORD $0xeb09003f3900011f
DWORD $0x9100042154000242
DWORD $0x5100050838616a88
DWORD $0x54ffff487100311f
	MOVD $rtp_wire_constants<>+852(SB), R10
DWORD $0x10fffe6b9100014a
DWORD $0x8b0c096b3868694c
DWORD $0xb94033e8d61f0160
DWORD $0x9101b3e834fffe28
DWORD $0x17ffffee3900011f
DWORD $0x54000a03f1003d3f
DWORD $0x540009c8f103f83f
DWORD $0x97ffa475aa1403e0
DWORD $0x52801fe891004009
DWORD $0xf103fd3faa0003e1
DWORD $0x17ffffe29a883129
DWORD $0x9100e3e834fffc36
DWORD $0x17ffffde3900011f
DWORD $0x7941366a34fffbb5
DWORD $0x7102cd5f910153e8
DWORD $0x34fffaea5400070c
DWORD $0x54fffaa07101695f
DWORD $0x34fffa9d17ffffd5
DWORD $0x3900011f9100d3e8
DWORD $0x34fffa1917ffffd1
DWORD $0x3900011f910103e8
DWORD $0xb9401fe817ffffcd
DWORD $0x910173e83607f968
DWORD $0x17ffffc83900011f
DWORD $0x34fff8c8b9402fe8
DWORD $0x3900011f910163e8
DWORD $0xb94027e817ffffc3
DWORD $0x910123e834fff828
DWORD $0x17ffffbe3900011f
DWORD $0x34fff788b9402be8
DWORD $0x3900011f910143e8
DWORD $0x340001d717ffffb9
DWORD $0x7100011fb9407a68
DWORD $0x1400000b1a9f07e8
DWORD $0x9100f3e834fff67a
DWORD $0x17ffffb03900011f
DWORD $0x34fff5c8b94023e8
DWORD $0x3900011f910113e8
DWORD $0x2a1f03e817ffffab
DWORD $0xb9408a6a34fff538
DWORD $0x1a8803e87100015f
DWORD $0x910133e83607f4a8
DWORD $0x17ffffa23900011f
DWORD $0x54fff3e07102d15f
DWORD $0x54fff3a07104395f
DWORD $0x3941b3e917ffff9d
DWORD $0x394173ea3941a3e8
DWORD $0x394153ec394163eb
DWORD $0x394133ee394143ed
DWORD $0x394113f1394123ef
DWORD $0x3940f3e1394103f0
DWORD $0x3940d3e33940e3e4
DWORD $0x531d714af9400be2
DWORD $0x2a1f03e07100037f
DWORD $0x3943366a0b090549
DWORD $0x1a9f150b0b0b1129
DWORD $0x1a8b01087100015f
DWORD $0x39436e6b53144c8a
DWORD $0x2a012d4a0b0c1529
DWORD $0x5290000b7100017f
DWORD $0x53175a290b080928
DWORD $0x2a0d19082a03354a
DWORD $0x2a0e1d080b0f2129
DWORD $0x33001d090b102929
DWORD $0x2a0801481a8b03e8
DWORD $0xb90000482a090108
WORD $0x17fffed5
	ADD $192, RSP
	// 97016: rtpw_left_out_layers
DWORD $0xf900021ed10443f0
	SUB $272, RSP
WORD $0xf9005bfd
DWORD $0xa90d67faa90c6ffe
DWORD $0xa90f57f6a90e5ff8
DWORD $0x6f00e400a9104ff4
DWORD $0xad0283e039434428
DWORD $0x340001a83d8013e0
DWORD $0x5280012879413429
DWORD $0x540000ac7102cd3f
DWORD $0x7101693f34000109
DWORD $0x140000cf540000c0
DWORD $0x540000607104393f
DWORD $0x540019617102d13f
DWORD $0x3400006839435428
DWORD $0x340018c8b9407828
DWORD $0x3400006839435828
DWORD $0x34001848b9408828
DWORD $0x3400008839434c28
DWORD $0x1101fd0839429828
DWORD $0x39436028373817a8
DWORD $0x4f01e400340003c8
DWORD $0x4f04e4a2aa0103e8
DWORD $0x4f06e4c33cca8d01
DWORD $0x4f07e6c54f07e4c4
	MOVD $rtp_wire_constants<>+128(SB), R9
DWORD $0x4e2284004ea01c20
DWORD $0x4f02e7e34e238422
DWORD $0x6e2234a26e203480
DWORD $0x4e201c406e238c21
DWORD $0x3dc001214e611c00
DWORD $0x6e0040014e211c00
DWORD $0x4e71b8004e013800
DWORD $0x321001291e260009
DWORD $0x5ac011295ac00129
DWORD $0x350013c838694908
DWORD $0x3400064839436428
DWORD $0x384b9d09aa0103e8
DWORD $0x3942e82934000269
DWORD $0x3942ec2934000269
DWORD $0x3942f02934000269
DWORD $0x3942f42934000269
DWORD $0x3942f82934000269
DWORD $0x3942fc2934000269
DWORD $0x3943002934000269
DWORD $0x3943042934000269
DWORD $0x5280010935001129
DWORD $0xaa1f03e914000010
DWORD $0x528000291400000e
DWORD $0x528000491400000c
DWORD $0x528000691400000a
DWORD $0x5280008914000008
DWORD $0x528000a914000006
DWORD $0x528000c914000004
DWORD $0x528000e914000002
DWORD $0x3840150ab40001a9
DWORD $0x71017d5fd1000529
DWORD $0x5100c14b54ffff80
DWORD $0x54ffff237100297f
DWORD $0x5101054a121a794a
DWORD $0x54fffea37100695f
DWORD $0x394368281400006b
DWORD $0xaa0103e834000648
DWORD $0x34000269384c2d09
DWORD $0x3400026939430c29
DWORD $0x3400026939431029
DWORD $0x3400026939431429
DWORD $0x3400026939431829
DWORD $0x3400026939431c29
DWORD $0x3400026939432029
DWORD $0x3400026939432429
DWORD $0x35000ac939432829
DWORD $0x1400001052800109
DWORD $0x1400000eaa1f03e9
DWORD $0x1400000c52800029
DWORD $0x1400000a52800049
DWORD $0x1400000852800069
DWORD $0x1400000652800089
DWORD $0x14000004528000a9
DWORD $0x14000002528000c9
DWORD $0xb40001a9528000e9
DWORD $0xd10005293840150a
DWORD $0x54ffff8071017d5f
DWORD $0x7100297f5100c14b
DWORD $0x121a794a54ffff23
DWORD $0x7100695f5101054a
DWORD $0x1400003854fffea3
DWORD $0x37f806c839c13828
DWORD $0x71003d1f39413c28
DWORD $0xaa0003f354000668
DWORD $0x91016028a9030fe1
DWORD $0x910103e039414834
DWORD $0xf9003fe89101e3e1
DWORD $0x394103e897ffcaf1
DWORD $0x540005017100051f
DWORD $0x34000634f94027ea
DWORD $0xaa1303e8ad411260
DWORD $0xad4286673dc01263
DWORD $0x3dc02262ad464266
DWORD $0x3dc03a714ea01c60
DWORD $0x4ea11c41ad449663
DWORD $0x4ea41ce43dc01e62
DWORD $0x3dc02e664ea51cc5
DWORD $0x4ea21c614ea01c20
DWORD $0x4ea51e234ea61e02
DWORD $0x4ea41c213dc03e65
DWORD $0x4ea01c604ea21ca2
DWORD $0x4ea11c413dc00663
DWORD $0x4ea11c004ea31c00
DWORD $0xea11c006e004001
DWORD $0xaa4981299e660009
DWORD $0x2a0b0129d350fd2b
DWORD $0x72001d3f2a492129
DWORD $0x528001e954000780
DWORD $0x5280012814000048
DWORD $0x2a0803e0a9504ff4
DWORD $0xf9405bfda94f57f6
DWORD $0xa94d67faa94e5ff8
WORD $0xa94c6ffe
	ADD $272, RSP
WORD $0xd65f03c0
	SUB $272, RSP
DWORD $0x3941cd09f9400148
DWORD $0x3941ed0b3941d10a
DWORD $0x3941d90d3941f10c
DWORD $0x7100013f3941e50e
DWORD $0x3941f5103941e10f
DWORD $0x1a9f07e92a0b018b
DWORD $0x1a9f07ea7100015f
DWORD $0x3941fd117100017f
DWORD $0x710001bf1a9f07eb
DWORD $0x1a9f07ec3941f90d
DWORD $0x39420501710001df
DWORD $0x710001ff1a9f07ee
DWORD $0x3941e9102a1001af
DWORD $0x710001ff1a9f07ed
DWORD $0x394209021a9f07ef
DWORD $0x7100021f39420103
DWORD $0x1a9f07f03941dd08
DWORD $0x1a9f07e07100023f
DWORD $0x1a9f07f17100003f
DWORD $0x1a9f07e17100005f
DWORD $0x529000037100007f
DWORD $0x7100011f1a9f07e4
DWORD $0x140000c91a9f07e2
WORD $0x3dc00100
	MOVD $rtp_wire_constants<>+128(SB), R9
WORD $0x3dc00121
DWORD $0x4e601c204e209800
DWORD $0x4e0138006e004001
DWORD $0x1e2600094e71b800
DWORD $0x92403d2932000129
DWORD $0xd2401529dac01129
DWORD $0xaa1f03e1f9400156
DWORD $0x3941d2cf3941cecc
DWORD $0x3941f2ca3941eecb
DWORD $0x3941e6d13941dad0
DWORD $0x290533ef7100019f
DWORD $0x2a0b014c3941f6cd
DWORD $0x710001ff1a9f07ee
DWORD $0x72001d9f1a9f07ef
DWORD $0x3941e2d43941fadd
DWORD $0x7100021f1a9f07ec
DWORD $0x1a9f07ee3902f3ee
DWORD $0x2903c7ed7100023f
DWORD $0x3941ead52a0d03ad
DWORD $0x1a9f07ef3902e3ef
DWORD $0x3941fed77100029f
DWORD $0x1a9f07ec3902b3ec
DWORD $0x394206d8710001bf
DWORD $0x1a9f07ed39420ad9
DWORD $0x3902a3ee710002bf
DWORD $0x710002ff1a9f07ee
DWORD $0x1a9f07ec390283ec
DWORD $0x394202da7100031f
DWORD $0x1a9f07ed390273ed
DWORD $0x3941dedb7100033f
DWORD $0x1a9f07ec390253ec
DWORD $0x390243ed7100035f
DWORD $0x7100037f1a9f07ed
DWORD $0x1a9f07ec390233ec
DWORD $0x5280002b7100017f
DWORD $0xb90027f07a401944
DWORD $0x390293ef1a9f07ea
DWORD $0x390223ed390263ee
DWORD $0x390203eb390213ec
DWORD $0x14000005b9001bea
DWORD $0x3400006ab9402bea
DWORD $0x3900015f9102e3ea
DWORD $0x54000262eb09003f
DWORD $0x3861690a91000421
DWORD $0x7100395f5100054a
WORD $0x54ffff48
	MOVD $rtp_wire_constants<>+865(SB), R11
WORD $0x9100016b
DWORD $0x386a696d10fffe4c
DWORD $0x910203ea8b0d098c
DWORD $0xb9402fead61f0180
DWORD $0x9102f3ea34fffe0a
DWORD $0x17ffffed3900015f
DWORD $0x540009c3f1003d3f
DWORD $0x54000988f103f83f
DWORD $0x97ffa273aa1303e0
DWORD $0x52801fe99100400a
DWORD $0xf103fd5faa0003e1
DWORD $0x9a893149aa1303e8
DWORD $0x34fffbf917ffffe0
DWORD $0x3900015f910233ea
DWORD $0xb94027ea17ffffdc
DWORD $0x9102a3ea34fffb4a
DWORD $0x17ffffd73900015f
DWORD $0x910223ea34fffada
DWORD $0x17ffffd33900015f
DWORD $0x910253ea34fffa57
DWORD $0x17ffffcf3900015f
DWORD $0x3607f9aab9401bea
DWORD $0x3900015f9102b3ea
DWORD $0xb9401fea17ffffca
DWORD $0xb94022ca3400008a
DWORD $0x1a9f07ea7100015f
DWORD $0xb94032cb34fff89d
DWORD $0x1a8a03ea7100017f
DWORD $0x910273ea3607f80a
DWORD $0x17ffffbd3900015f
DWORD $0x34fff76ab94023ea
DWORD $0x910293ea794086cb
DWORD $0x540002ac7102cd7f
DWORD $0x7101697f34fff6ab
DWORD $0x17ffffb354fff660
DWORD $0x910213ea34fff65b
DWORD $0x17ffffaf3900015f
DWORD $0x910283ea34fff5d4
DWORD $0x17ffffab3900015f
DWORD $0x910243ea34fff558
DWORD $0x17ffffa73900015f
DWORD $0x910263ea34fff4d5
DWORD $0x17ffffa33900015f
DWORD $0x54fff4007102d17f
DWORD $0x54fff3c07104397f
DWORD $0x394203e817ffff9e
DWORD $0x3942e3ea3942f3e9
DWORD $0x3942a3ec3942b3eb
DWORD $0x53114103394293ee
DWORD $0x394273ef394283ed
DWORD $0x394253e0394263f0
DWORD $0x394233e1394243f1
DWORD $0x394213e2394223e4
DWORD $0x39433506a94317e8
DWORD $0x3943310834000086
DWORD $0x1a9f154a7100011f
DWORD $0x2a1f03e8531d716b
DWORD $0x53144c8b0b090569
DWORD $0x2a012d6b0b0c1129
DWORD $0x2a03016b0b0e1529
DWORD $0x5317580a0b0a0929
DWORD $0xb10214a2a0d1929
DWORD $0xb11294a2a0f1d29
DWORD $0x2a02356933001d2a
DWORD $0xb90000a92a0a0129
WORD $0x17fffee8
	ADD $272, RSP
	// 99056: rtpw_wire_len
WORD $0xf81c03fe
	SUB $64, RSP
DWORD $0xa90257f6f9000bfe
DWORD $0x39434428a9034ff4
DWORD $0x79413429340001a8
DWORD $0x7102cd3f52800128
DWORD $0x34000109540000ac
DWORD $0x540000c07101693f
DWORD $0x7104393f14000048
DWORD $0x7102d13f54000060
DWORD $0x3943542854000881
DWORD $0xb940782834000068
DWORD $0x3943582834001368
DWORD $0xb940882834000068
DWORD $0x39434c28340012e8
DWORD $0x3942982834000088
DWORD $0x373812481101fd08
DWORD $0x340003c839436028
DWORD $0xaa0103e94f01e400
DWORD $0x3cca8d214f04e4a2
DWORD $0x4f07e4c44f06e4c3
WORD $0x4f07e6c5
	MOVD $rtp_wire_constants<>+128(SB), R10
WORD $0x4ea01c20
DWORD $0x4e2384224e228400
DWORD $0x6e2034804f02e7e3
DWORD $0x6e238c216e2234a2
DWORD $0x4e611c004e201c40
DWORD $0x4e211c003dc00141
DWORD $0x4e0138006e004001
DWORD $0x1e26000a4e71b800
DWORD $0x5ac0014a3210014a
DWORD $0x386a49295ac0114a
DWORD $0x3943642935000e69
DWORD $0xaa0103ea34000729
DWORD $0x3400034b384b9d4b
DWORD $0x3400034b3942e82b
DWORD $0x3400034b3942ec2b
DWORD $0x3400034b3942f02b
DWORD $0x3400034b3942f42b
DWORD $0x3400034b3942f82b
DWORD $0x3400034b3942fc2b
DWORD $0x3400034b3943002b
DWORD $0x35000bcb3943042b
DWORD $0x140000175280010b
DWORD $0x2a0803e0a9434ff4
DWORD $0xf9400bfea94257f6
	ADD $64, RSP
WORD $0xd65f03c0
	SUB $64, RSP
WORD $0xaa1f03eb
DWORD $0x5280002b1400000e
DWORD $0x5280004b1400000c
DWORD $0x5280006b1400000a
DWORD $0x5280008b14000008
DWORD $0x528000ab14000006
DWORD $0x528000cb14000004
DWORD $0x528000eb14000002
DWORD $0x3840154cb40001ab
DWORD $0x71017d9fd100056b
DWORD $0x5100c18d54ffff80
DWORD $0x54ffff23710029bf
DWORD $0x5101058c121a798c
DWORD $0x54fffea37100699f
DWORD $0x3943682a14000039
DWORD $0xaa0103eb3400064a
DWORD $0x3400026c384c2d6c
DWORD $0x3400026c39430c2c
DWORD $0x3400026c3943102c
DWORD $0x3400026c3943142c
DWORD $0x3400026c3943182c
DWORD $0x3400026c39431c2c
DWORD $0x3400026c3943202c
DWORD $0x3400026c3943242c
DWORD $0x3500048c3943282c
DWORD $0x140000105280010c
DWORD $0x1400000eaa1f03ec
DWORD $0x1400000c5280002c
DWORD $0x1400000a5280004c
DWORD $0x140000085280006c
DWORD $0x140000065280008c
DWORD $0x14000004528000ac
DWORD $0x14000002528000cc
DWORD $0xb40001ac528000ec
DWORD $0xd100058c3840156d
DWORD $0x54ffff8071017dbf
DWORD $0x710029df5100c1ae
DWORD $0x121a79ad54ffff23
DWORD $0x710069bf510105ad
DWORD $0x1400000654fffea3
DWORD $0x37f8008b39c1382b
DWORD $0x71003d7f39413c2b
DWORD $0x5280012854000129
DWORD $0x2a0803e0a9434ff4
DWORD $0xf9400bfea94257f6
	ADD $64, RSP
WORD $0xd65f03c0
	SUB $64, RSP
WORD $0xd37ef56b
DWORD $0x9101602d3941482c
DWORD $0x91003175f9000fed
DWORD $0xad4110003400152c
DWORD $0xad4284073dc01003
DWORD $0x3dc038113dc02002
DWORD $0x4ea01c60ad464006
DWORD $0x4ea11c41ad449403
DWORD $0x3dc01c024ea41ce4
DWORD $0x3dc02c064ea51cc5
DWORD $0x4ea21c614ea01c20
DWORD $0x4ea51e234ea61e02
DWORD $0x4ea41c213dc03c05
DWORD $0x4ea01c604ea21ca2
DWORD $0x4ea11c413dc00403
DWORD $0x4ea11c004ea31c00
DWORD $0xea11c006e004001
DWORD $0xaa4b816b9e66000b
DWORD $0x2a0c016bd350fd6c
DWORD $0x72001d7f2a4b216b
DWORD $0x528001f354000060
DWORD $0x3dc000001400000f
	MOVD $rtp_wire_constants<>+128(SB), R11
DWORD $0x4e2098003dc00161
DWORD $0x6e0040014e601c20
DWORD $0x4e71b8004e013800
DWORD $0x3200016b1e26000b
DWORD $0xdac0116b92403d6b
DWORD $0x340000a8d2401573
DWORD $0x7100011f3942a028
DWORD $0x140000021a9f17eb
DWORD $0x340000892a1f03eb
DWORD $0x7100011f3942e428
DWORD $0x340000aa1a9f17e9
DWORD $0x7100011f39430828
DWORD $0x140000021a9f17e8
DWORD $0x4f00e5e02a1f03e8
DWORD $0x6e208c203cc01001
DWORD $0x1e26000a6e30a800
DWORD $0x528000233600018a
DWORD $0xaa0203f4b4000bb3
DWORD $0xaa1303e1910063e2
DWORD $0x91000c0897ffca12
DWORD $0x927ef508aa1403e2
DWORD $0x1400005591001108
DWORD $0x2a090169f1003e7f
DWORD $0x6f07e7e0540007c3
DWORD $0x3cc3f0023cc1f001
DWORD $0x3cc2f0043cc0f003
DWORD $0x3cc4f0063cc5f005
DWORD $0x4e2084213943fc0a
DWORD $0x4e2084634e208442
DWORD $0x4e2084a54e208484
DWORD $0x5100054a4e2084c6
DWORD $0x3cc7f0026e226c21
DWORD $0x6e246c6371003d5f
DWORD $0x1a9f27eb3cc6f004
DWORD $0x6e256c214e208442
DWORD $0x3cc9f0054e208484
DWORD $0x3cc8f0066e266c63
DWORD $0x6e226c214e2084a5
DWORD $0x3ccbf0024e2084c6
DWORD $0x3ccaf0046e246c63
DWORD $0x6e256c214e208442
DWORD $0x3ccdf0054e208484
DWORD $0x3cccf0066e266c63
DWORD $0x6e246c626e226c21
DWORD $0x4e2084c44e2084a3
DWORD $0x6e246c426e236c21
DWORD $0x3ccef0044f00e5e3
DWORD $0x6f00e4026e226c21
DWORD $0x6e2134614e208480
DWORD $0x6e30a8216e203460
DWORD $0x4ea01c406e010422
DWORD $0x4e20a8004f0f5400
DWORD $0x1e26000a6e30a800
DWORD $0x140000022a0b014a
DWORD $0x2a0801282a1f03ea
DWORD $0x52000109370001aa
DWORD $0xaa0203f637000169
DWORD $0xaa1303e1910063e2
DWORD $0x97ffc98caa0003f4
DWORD $0x2a0003e8aa1603e2
DWORD $0x3707f508aa1403e0
DWORD $0x2a0a010814000003
DWORD $0x2a1f03e33707f4a8
DWORD $0x52800088b5fff4b3
DWORD $0x2a1f03e88b150115
DWORD $0xa9434ff4f9000055
DWORD $0xa94257f62a0803e0
WORD $0xf9400bfe
	ADD $64, RSP
WORD $0xd65f03c0
	// 100524: rtpw_wire_len_layers
WORD $0xf81603fe
	SUB $160, RSP
WORD $0xf9003bfe
DWORD $0xa9094ff4a90857f6
DWORD $0x394344286f00e400
DWORD $0x3d8007e0ad0103e0
DWORD $0x79413429340001a8
DWORD $0x7102cd3f52800128
DWORD $0x34000109540000ac
DWORD $0x540000c07101693f
DWORD $0x7104393f14000048
DWORD $0x7102d13f54000060
DWORD $0x3943542854000881
DWORD $0xb940782834000068
DWORD $0x3943582834001ac8
DWORD $0xb940882834000068
DWORD $0x39434c2834001a48
DWORD $0x3942982834000088
DWORD $0x373819a81101fd08
DWORD $0x340003c839436028
DWORD $0xaa0103e84f01e400
DWORD $0x3cca8d014f04e4a2
DWORD $0x4f07e4c44f06e4c3
WORD $0x4f07e6c5
	MOVD $rtp_wire_constants<>+128(SB), R9
WORD $0x4ea01c20
DWORD $0x4e2384224e228400
DWORD $0x6e2034804f02e7e3
DWORD $0x6e238c216e2234a2
DWORD $0x4e611c004e201c40
DWORD $0x4e211c003dc00121
DWORD $0x4e0138006e004001
DWORD $0x1e2600094e71b800
DWORD $0x5ac0012932100129
DWORD $0x386949085ac01129
DWORD $0x39436428350015c8
DWORD $0xaa0103e834000728
DWORD $0x34000349384b9d09
DWORD $0x340003493942e829
DWORD $0x340003493942ec29
DWORD $0x340003493942f029
DWORD $0x340003493942f429
DWORD $0x340003493942f829
DWORD $0x340003493942fc29
DWORD $0x3400034939430029
DWORD $0x3500132939430429
DWORD $0x1400001752800109
DWORD $0x2a0803e0a9494ff4
DWORD $0xf9403bfea94857f6
	ADD $160, RSP
WORD $0xd65f03c0
	SUB $160, RSP
WORD $0xaa1f03e9
DWORD $0x528000291400000e
DWORD $0x528000491400000c
DWORD $0x528000691400000a
DWORD $0x5280008914000008
DWORD $0x528000a914000006
DWORD $0x528000c914000004
DWORD $0x528000e914000002
DWORD $0x3840150ab40001a9
DWORD $0x71017d5fd1000529
DWORD $0x5100c14b54ffff80
DWORD $0x54ffff237100297f
DWORD $0x5101054a121a794a
DWORD $0x54fffea37100695f
DWORD $0x3943682814000074
DWORD $0xaa0103e834000648
DWORD $0x34000269384c2d09
DWORD $0x3400026939430c29
DWORD $0x3400026939431029
DWORD $0x3400026939431429
DWORD $0x3400026939431829
DWORD $0x3400026939431c29
DWORD $0x3400026939432029
DWORD $0x3400026939432429
DWORD $0x35000be939432829
DWORD $0x1400001052800109
DWORD $0x1400000eaa1f03e9
DWORD $0x1400000c52800029
DWORD $0x1400000a52800049
DWORD $0x1400000852800069
DWORD $0x1400000652800089
DWORD $0x14000004528000a9
DWORD $0x14000002528000c9
DWORD $0xb40001a9528000e9
DWORD $0xd10005293840150a
DWORD $0x54ffff8071017d5f
DWORD $0x7100297f5100c14b
DWORD $0x121a794a54ffff23
DWORD $0x7100695f5101054a
DWORD $0x1400004154fffea3
DWORD $0x37f807e839c13828
DWORD $0x71003d1f39413c28
DWORD $0xaa0003f354000788
DWORD $0xaa0103f691016028
DWORD $0x910043e039414834
DWORD $0xaa0303f59101e3e1
DWORD $0x97ffc780f9003fe8
DWORD $0x7100051f394043e8
DWORD $0x39413ec854000601
DWORD $0x3cc283e13cc183e0
DWORD $0xd37ef508f9401fe9
DWORD $0xf90033e9ad0207e0
DWORD $0x340005f491003116
DWORD $0xaa1303e0ad411260
DWORD $0xad4286673dc01263
DWORD $0x3dc02262ad464266
DWORD $0x3dc03a714ea01c60
DWORD $0x4ea11c41ad449663
DWORD $0x4ea41ce43dc01e62
DWORD $0x3dc02e664ea51cc5
DWORD $0x4ea21c614ea01c20
DWORD $0x4ea51e234ea61e02
DWORD $0x4ea41c213dc03e65
DWORD $0x4ea01c604ea21ca2
DWORD $0x4ea11c413dc00663
DWORD $0x4ea11c004ea31c00
DWORD $0xea11c006e004001
DWORD $0xaa4881089e660008
DWORD $0x2a090108d350fd09
DWORD $0x2a482108aa1503e9
DWORD $0x540001a072001d1f
DWORD $0x14000019528001e1
DWORD $0xa9494ff452800128
DWORD $0xa94857f62a0803e0
WORD $0xf9403bfe
	ADD $160, RSP
WORD $0xd65f03c0
	SUB $160, RSP
DWORD $0x14000086aa1503e9
WORD $0x3dc00000
	MOVD $rtp_wire_constants<>+128(SB), R8
WORD $0x3dc00101
DWORD $0x4e601c204e209800
DWORD $0x4e0138006e004001
DWORD $0x1e2600084e71b800
DWORD $0x92403d0832000108
DWORD $0xd2401501dac01108
DWORD $0xf9400108f94023e8
DWORD $0x3400008a3942010a
DWORD $0x7100015f3941410a
DWORD $0x3942050b1a9f17ea
DWORD $0x3941850b3400008b
DWORD $0x1a9f17eb7100017f
DWORD $0x340000ac3942090c
DWORD $0x7100011f3941a908
DWORD $0x140000021a9f17e8
DWORD $0x4f00e5e02a1f03e8
DWORD $0x6e208c203cc01001
DWORD $0x1e26000c6e30a800
DWORD $0x528000233600014c
DWORD $0x910103e2b4000b61
DWORD $0x91000c0897ffc9ad
DWORD $0x927ef508aa1503e9
DWORD $0x1400005591001108
DWORD $0x2a0b014af1003c3f
DWORD $0x6f07e7e0540007c3
DWORD $0x3cc3f0023cc1f001
DWORD $0x3cc2f0043cc0f003
DWORD $0x3cc4f0063cc5f005
DWORD $0x4e2084213943fc0b
DWORD $0x4e2084634e208442
DWORD $0x4e2084a54e208484
DWORD $0x5100056b4e2084c6
DWORD $0x3cc7f0026e226c21
DWORD $0x6e246c6371003d7f
DWORD $0x1a9f27ec3cc6f004
DWORD $0x6e256c214e208442
DWORD $0x3cc9f0054e208484
DWORD $0x3cc8f0066e266c63
DWORD $0x6e226c214e2084a5
DWORD $0x3ccbf0024e2084c6
DWORD $0x3ccaf0046e246c63
DWORD $0x6e256c214e208442
DWORD $0x3ccdf0054e208484
DWORD $0x3cccf0066e266c63
DWORD $0x6e246c626e226c21
DWORD $0x4e2084c44e2084a3
DWORD $0x6e246c426e236c21
DWORD $0x3ccef0044f00e5e3
DWORD $0x6f00e4026e226c21
DWORD $0x6e2134614e208480
DWORD $0x6e30a8216e203460
DWORD $0x4ea01c406e010422
DWORD $0x4e20a8004f0f5400
DWORD $0x1e26000b6e30a800
DWORD $0x140000022a0c016b
DWORD $0x2a0801482a1f03eb
DWORD $0x5200010a370001ab
DWORD $0x910103e23700016a
DWORD $0xaa0103f4aa1303e0
DWORD $0xaa1403e197ffc925
DWORD $0x2a0003e8aa1503e9
DWORD $0x3707f548aa1303e0
DWORD $0x2a0b010814000003
DWORD $0x2a1f03e33707f4e8
DWORD $0x52800088b5fff4e1
DWORD $0x2a1f03e88b160116
DWORD $0xa9494ff4f9000136
DWORD $0xa94857f62a0803e0
WORD $0xf9403bfe
	ADD $160, RSP
WORD $0xd65f03c0
	// 102084: rtpw_write_layers
WORD $0xd10483f0
WORD $0xf900021e
	SUB $288, RSP
DWORD $0xa90d6ffef90063fd
DWORD $0xa90f5ff8a90e67fa
DWORD $0xa9114ff4a91057f6
DWORD $0x394344286f00e400
DWORD $0xf100007f52820009
DWORD $0xad0183e09a9f0136
DWORD $0x340001a83d800be0
DWORD $0x5280012879413429
DWORD $0x540000ac7102cd3f
DWORD $0x7101693f34000109
DWORD $0x140000c3540000c0
DWORD $0x540000607104393f
DWORD $0x540017e17102d13f
DWORD $0x3400006839435428
DWORD $0x34001748b9407828
DWORD $0x3400006839435828
DWORD $0x340016c8b9408828
DWORD $0x3400008839434c28
DWORD $0x1101fd0839429828
DWORD $0x3943602837381628
DWORD $0x4f01e400340003c8
DWORD $0x4f04e4a2aa0103e8
DWORD $0x4f06e4c33cca8d01
DWORD $0x4f07e6c54f07e4c4
	MOVD $rtp_wire_constants<>+128(SB), R9
DWORD $0x4e2284004ea01c20
DWORD $0x4f02e7e34e238422
DWORD $0x6e2234a26e203480
DWORD $0x4e201c406e238c21
DWORD $0x3dc001214e611c00
DWORD $0x6e0040014e211c00
DWORD $0x4e71b8004e013800
DWORD $0x321001291e260009
DWORD $0x5ac011295ac00129
DWORD $0x3500124838694908
DWORD $0x3400064839436428
DWORD $0x384b9d09aa0103e8
DWORD $0x3942e82934000269
DWORD $0x3942ec2934000269
DWORD $0x3942f02934000269
DWORD $0x3942f42934000269
DWORD $0x3942f82934000269
DWORD $0x3942fc2934000269
DWORD $0x3943002934000269
DWORD $0x3943042934000269
DWORD $0x5280010935000fa9
DWORD $0xaa1f03e914000010
DWORD $0x528000291400000e
DWORD $0x528000491400000c
DWORD $0x528000691400000a
DWORD $0x5280008914000008
DWORD $0x528000a914000006
DWORD $0x528000c914000004
DWORD $0x528000e914000002
DWORD $0x3840150ab40001a9
DWORD $0x71017d5fd1000529
DWORD $0x5100c14b54ffff80
DWORD $0x54ffff237100297f
DWORD $0x5101054a121a794a
DWORD $0x54fffea37100695f
DWORD $0x394368281400005f
DWORD $0xaa0103e834000648
DWORD $0x34000269384c2d09
DWORD $0x3400026939430c29
DWORD $0x3400026939431029
DWORD $0x3400026939431429
DWORD $0x3400026939431829
DWORD $0x3400026939431c29
DWORD $0x3400026939432029
DWORD $0x3400026939432429
DWORD $0x3500094939432829
DWORD $0x1400001052800109
DWORD $0x1400000eaa1f03e9
DWORD $0x1400000c52800029
DWORD $0x1400000a52800049
DWORD $0x1400000852800069
DWORD $0x1400000652800089
DWORD $0x14000004528000a9
DWORD $0x14000002528000c9
DWORD $0xb40001a9528000e9
DWORD $0xd10005293840150a
DWORD $0x54ffff8071017d5f
DWORD $0x7100297f5100c14b
DWORD $0x121a794a54ffff23
DWORD $0x7100695f5101054a
DWORD $0x1400002c54fffea3
DWORD $0x37f8054839c13828
DWORD $0x71003d1f39413c28
DWORD $0xaa0003f4540004e8
DWORD $0xaa0103f591016028
DWORD $0x910083e03941483d
DWORD $0xaa0303fa9101e3e1
DWORD $0xf90067e5aa0403f3
DWORD $0x97ffc5f8f9003fe8
DWORD $0x7100051f394083e8
DWORD $0x39413ebb54000321
DWORD $0x528001083cc283e0
DWORD $0xf94027e93cc383e1
DWORD $0xad0287e071003f7f
DWORD $0x54000228f9003be9
DWORD $0xf94067ec39c13ab0
DWORD $0x37f801b0aa1503eb
DWORD $0x710003bfd37ef779
DWORD $0x5280018d52800208
DWORD $0x9a8801a8aa1303e9
DWORD $0xeb08027f8b190108
DWORD $0x52800108540001c2
DWORD $0x5280012814000002
DWORD $0x2a0803e0a9514ff4
DWORD $0xf94063fda95057f6
DWORD $0xa94e67faa94f5ff8
WORD $0xa94d6ffe
	ADD $288, RSP
WORD $0xd65f03c0
	SUB $288, RSP
DWORD $0x910203efaa1a03ea
DWORD $0x340004dd8b160357
DWORD $0xaa1403e0ad411280
DWORD $0xad4286873dc01283
DWORD $0x3dc02282ad464286
DWORD $0x3dc03a914ea01c60
DWORD $0x4ea11c41ad449683
DWORD $0x4ea41ce43dc01e82
DWORD $0x3dc02e864ea51cc5
DWORD $0x4ea21c614ea01c20
DWORD $0x4ea51e234ea61e02
DWORD $0x4ea41c213dc03e85
DWORD $0x4ea01c604ea21ca2
DWORD $0x4ea11c413dc00683
DWORD $0x4ea11c004ea31c00
DWORD $0xea11c006e004001
DWORD $0xaa4881089e660008
DWORD $0x2a0c0108d350fd0c
DWORD $0x72001d1f2a482108
DWORD $0x528001e154000480
DWORD $0x3941456814000030
DWORD $0x5280140dfd400560
DWORD $0x5280100e79409969
DWORD $0x394141687100011f
DWORD $0x1a8d01cd2e200800
DWORD $0x5ac0092912800fee
DWORD $0x53107d287100011f
DWORD $0x1a8e03ed2a1b01a9
DWORD $0x2a1001a9390002e9
DWORD $0x390006e9790006e8
DWORD $0x39413d68fc0042e0
DWORD $0xad408560340012e8
DWORD $0x3dc00d627100211f
DWORD $0x3cc3c160ad0407e0
DWORD $0x3c82c1e03d802be2
DWORD $0xaa1f03eb54001222
DWORD $0x140000a152800189
WORD $0x3dc00000
	MOVD $rtp_wire_constants<>+128(SB), R8
WORD $0x3dc00101
DWORD $0x4e601c204e209800
DWORD $0x4e0138006e004001
DWORD $0x1e2600084e71b800
DWORD $0x92403d0832000108
DWORD $0xd2401501dac01108
DWORD $0xf9400108f9402be8
DWORD $0x3400008c3942010c
DWORD $0x7100019f3941410c
DWORD $0x3942050d1a9f17ec
DWORD $0x3941850d3400008d
DWORD $0x1a9f17ed710001bf
DWORD $0x340000ae3942090e
DWORD $0x7100011f3941a908
DWORD $0x140000021a9f17e8
DWORD $0x4f00e5e02a1f03e8
DWORD $0x6e208c203cc01001
DWORD $0x1e26000e6e30a800
DWORD $0xcb190128360004ae
DWORD $0xd10031187940efec
DWORD $0x54000088f104131f
DWORD $0x5280003d3400006c
DWORD $0x7100419f1400009c
DWORD $0x52801fed52800208
DWORD $0xf1003c3f1a888188
DWORD $0x910009085280003d
DWORD $0x9bad7d089a8d302d
DWORD $0xf110051f340011ec
DWORD $0xa9087fe0540011a3
DWORD $0x2a1003fd910203e0
DWORD $0xaa0103f9f9004be1
DWORD $0xaa1903e197ffc8d1
DWORD $0x910203ef2a1d03f0
DWORD $0xaa1a03eaaa1503eb
DWORD $0xaa0003e8aa1303e9
DWORD $0x5280003daa1403e0
DWORD $0xf1003c3f1400007d
DWORD $0x54000ba32a0d018c
DWORD $0x3cc1f0016f07e7e0
DWORD $0x3cc0f0033cc3f002
DWORD $0x3cc5f0053cc2f004
DWORD $0x3943fc0d3cc4f006
DWORD $0x4e2084424e208421
DWORD $0x4e2084844e208463
DWORD $0x4e2084c64e2084a5
DWORD $0x6e226c21510005ad
DWORD $0x71003dbf3cc7f002
DWORD $0x3cc6f0046e246c63
DWORD $0x4e2084421a9f27ee
DWORD $0x4e2084846e256c21
DWORD $0x6e266c633cc9f005
DWORD $0x4e2084a53cc8f006
DWORD $0x4e2084c66e226c21
DWORD $0x6e246c633ccbf002
DWORD $0x4e2084423ccaf004
DWORD $0x4e2084846e256c21
DWORD $0x6e266c633ccdf005
DWORD $0x6e226c213cccf006
DWORD $0x4e2084a36e246c62
DWORD $0x6e236c214e2084c4
DWORD $0x4f00e5e36e246c42
DWORD $0x6e226c213ccef004
DWORD $0x4e2084806f00e402
DWORD $0x6e2034606e213461
DWORD $0x6e0104226e30a821
DWORD $0x4f0f54004ea01c40
DWORD $0x6e30a8004e20a800
DWORD $0x2a0e01ad1e26000d
DWORD $0x5280018914000021
DWORD $0x927d110b140000a4
DWORD $0x8b0a02ca52800189
DWORD $0x9100714ad343fd6d
DWORD $0xb37b11a9927d110e
DWORD $0x910041ad910203ed
DWORD $0xf10021cead7f85a0
DWORD $0x6e200800910081ad
DWORD $0xad3f85406e200821
DWORD $0x54ffff219100814a
DWORD $0x54001220eb08017f
DWORD $0xcb0b0108910203ea
DWORD $0xb840454b8b0b094a
DWORD $0x5ac0096bf1000508
DWORD $0x91001129b8296aeb
DWORD $0x1400008754ffff61
DWORD $0x2a0801882a1f03ed
DWORD $0x5200010c3700024d
DWORD $0x910143e23700020c
DWORD $0xaa0103fdaa1403e0
DWORD $0x97ffc72eb9001bf0
DWORD $0xaa1d03e1b9401bf0
DWORD $0xaa1503eb910203ef
DWORD $0xaa1303e9aa1a03ea
DWORD $0xaa1403e02a0003e8
DWORD $0x140000033707ed68
DWORD $0x3707ed082a0d0108
DWORD $0xcb19012c8b011028
DWORD $0x52821dedf1003c3f
DWORD $0xd10031982a1f03fd
DWORD $0x91001d089a8d3108
DWORD $0x54000349eb18011f
DWORD $0x910143e2b40002c1
DWORD $0x2a1d03e3aa1403e0
DWORD $0xf9000ff8aa0103f9
DWORD $0x2a1003fd2a1d03f8
DWORD $0x2a1d03f097ffc749
DWORD $0x91000c082a1803fd
DWORD $0xaa1903e1f9400ff8
DWORD $0x910203ef927ef508
DWORD $0xaa1a03eaaa1503eb
DWORD $0xaa1403e0aa1303e9
DWORD $0x1400000291001108
DWORD $0xeb18011f52800088
DWORD $0x3941456854ffd8e8
DWORD $0x5280160dfd400560
DWORD $0x5280120e7940996c
DWORD $0x394141687100011f
DWORD $0x1a8d01cd2e200800
DWORD $0x5ac0098c12800fee
DWORD $0x53107d887100011f
DWORD $0x1a8e03ed2a1b01ac
DWORD $0x2a1001ac390002ec
DWORD $0x390006ec790006e8
DWORD $0x39413d68fc0042e0
DWORD $0xad40856034000188
DWORD $0x3dc00d627100211f
DWORD $0x3cc3c160ad0407e0
DWORD $0x3c82c1e03d802be2
DWORD $0xaa1f03eb540000c2
DWORD $0x1400001652800193
DWORD $0x1400001d52800193
DWORD $0x52800193927d110b
DWORD $0xd343fd6c8b0a02ca
DWORD $0x927d110d9100714a
DWORD $0x910203ecb37b1193
DWORD $0xad7f85809100418c
DWORD $0x9100818cf10021ad
DWORD $0x6e2008216e200800
DWORD $0x9100814aad3f8540
DWORD $0xeb08017f54ffff21
DWORD $0x910203ea54000140
DWORD $0x8b0b094acb0b0108
DWORD $0xf1000508b840454b
DWORD $0xb8336aeb5ac0096b
DWORD $0x54ffff6191001273
DWORD $0x8b1302f4cb130128
DWORD $0xd10011052a1d03e3
DWORD $0x91001284910083e8
DWORD $0x97ffc812b27d0102
DWORD $0xaa1403e0aa0003e2
DWORD $0x97ffa3de2a1d03e1
DWORD $0x8b130009f94067ec
DWORD $0xf90001892a1f03e8
WORD $0x17fffe7a
	ADD $288, RSP
	// 104528: rtp_proved_write_with_form
DWORD $0x7100093f12001ca9
DWORD $0xf81d03fe54000388
	SUB $48, RSP
WORD $0xf10000df
DWORD $0xd37d10a95282000b
DWORD $0x9a9f016c5280200d
DWORD $0x72a0002df100007f
DWORD $0x9a9f016f52a0002e
DWORD $0x1ac925a5f100003f
DWORD $0xf94023ea1ac925c9
DWORD $0xaa0703e89a9f016b
DWORD $0x8b0f00638b0b0021
DWORD $0x2a0903e68b0c00c7
DWORD $0xf9000be8a901fbea
DWORD $0xf94013fe97ffc9fa
	ADD $48, RSP
WORD $0xd65f03c0
DWORD $0xd65f03c052800120
	// 104656: rtpw_write_headers
WORD $0xf81403fe
	SUB $192, RSP
DWORD $0xa9076ffef90033fd
DWORD $0xa9095ff8a90867fa
DWORD $0xa90b4ff4a90a57f6
DWORD $0x5282000af100003f
DWORD $0x9a9f014b3941180c
DWORD $0xaa0003f4f100007f
DWORD $0xf10000bf9a9f0148
DWORD $0x9a9f014952800120
DWORD $0x9a9f014af10000ff
DWORD $0x54001da87100419f
DWORD $0xeb16005fb9400296
DWORD $0xaa1f03f754001d43
DWORD $0x91011e8d3400016c
DWORD $0x384015af9100128e
DWORD $0x8b0f0210b84045d0
DWORD $0x54001c08eb16021f
DWORD $0x8b0f02f7f100058c
DWORD $0x79408a8c54ffff21
DWORD $0x9a9f028feb0c02ff
DWORD $0x710032df54001b21
DWORD $0x5280002054000062
DWORD $0x8b0b0038140000d6
DWORD $0x3101057f39c0030b
DWORD $0x92401d6c5400010c
DWORD $0x9100316bd37e0d8b
DWORD $0x540000a2eb0b02cd
DWORD $0x140000cb52800060
DWORD $0x140000c952800040
DWORD $0xeb16017f3720020c
DWORD $0xb40019c6540018a1
DWORD $0x8b080068f9406bec
DWORD $0xaa1f03ebaa1f03fb
DWORD $0xa90433e8a901e3ef
DWORD $0xf9002be88b0900a8
DWORD $0xa90323e68b0a00e8
DWORD $0x1400001df90017e4
DWORD $0x54001522f10011ac
DWORD $0x140000b552800080
DWORD $0xf9400fe2aa0603f3
DWORD $0xf94027e7f9401fe6
DWORD $0xaa0b03e5aa0403f5
DWORD $0xaa1603e1aa1803e0
DWORD $0xaa1d03e4aa1a03e3
DWORD $0x12001c0897ffca97
DWORD $0x540011817100051f
DWORD $0xaa1503e4aa1303e6
DWORD $0x290507bff94037eb
DWORD $0x8b0b002bf90007ab
DWORD $0x2a1f03e09100077b
DWORD $0x540013a0eb06037f
DWORD $0xf9402be952800608
DWORD $0x9b08277df90037eb
DWORD $0x3400006839407fa8
DWORD $0x37f80e8839c06ba8
DWORD $0xeb080089f94003a8
DWORD $0x54000e03fa572120
DWORD $0x39409ba9f94023ea
DWORD $0x35fffb298b08015a
DWORD $0xcb0b0108f94027e8
DWORD $0x54000d83eb16011f
DWORD $0x3100891f5100c6c8
DWORD $0x8b0b0119f9401fe8
DWORD $0x8b0b010054000108
DWORD $0xaa1603e2aa1803e1
DWORD $0x394083a897ffb4ef
DWORD $0x14000013350001a8
DWORD $0x710086df3dc00300
DWORD $0x540000633d800320
DWORD $0x3d8007203dc00700
DWORD $0x3ce86b00d10042c8
DWORD $0x394083a83ca86b20
DWORD $0x39406fa834000108
DWORD $0x7100011f39400729
DWORD $0x1a8803e812800fe8
DWORD $0x3900072833001928
DWORD $0x340000c839407fa8
DWORD $0x39406ba939400728
DWORD $0xb09010812190108
DWORD $0x39407ba839000728
DWORD $0x794033a8340000a8
DWORD $0x53107d085ac00908
DWORD $0x394073a879000728
DWORD $0x34000088f9002ffb
DWORD $0x5ac00908b94013a8
DWORD $0x394077a8b9000728
DWORD $0xb94017a834000088
DWORD $0xb9000b285ac00908
DWORD $0xb40004b339411a93
DWORD $0x91011e9891001295
DWORD $0x8b08032014000008
DWORD $0xaa1b03e2aa1a03e1
DWORD $0xf100067397ffcabf
DWORD $0x540003608b1b035a
DWORD $0xb84046a83840171b
DWORD $0x7100077f34fffefb
DWORD $0x3940034954000081
DWORD $0x17fffff638286b29
DWORD $0x5400008871000b7f
DWORD $0x78286b2979400349
DWORD $0x71000f7f17fffff1
DWORD $0x79400349540000e1
DWORD $0x790001098b080328
DWORD $0x3900090939400b49
DWORD $0x7100137f17ffffe9
DWORD $0xb940034954fffc68
DWORD $0x17ffffe4b8286b29
DWORD $0xaa1603e1a9429be4
DWORD $0xf94013f839409fa8
DWORD $0x34fff068f9402ffb
DWORD $0xaa1603e139400328
DWORD $0x39000328121a7908
DWORD $0xaa0403f517ffff7e
DWORD $0x52800122aa0603f3
DWORD $0xaa0403f514000004
DWORD $0x52800102aa0603f3
DWORD $0xaa1d03e0f94037f9
DWORD $0x97ffcabaaa1903e1
DWORD $0xaa1903ebaa1303e6
DWORD $0x9100077baa1503e4
DWORD $0xeb13037f2a1f03e0
DWORD $0x1400000f54ffee81
DWORD $0x394009ae8b0b030d
DWORD $0xd376d5ce39400dad
DWORD $0xeb0d019faa0d09cd
DWORD $0x528000c054000062
DWORD $0x8b0d016b14000006
DWORD $0xeb16017f9100116b
DWORD $0x5280012054ffe7a0
DWORD $0xf94033fda94b4ff4
DWORD $0xa9495ff8a94a57f6
DWORD $0xa9476ffea94867fa
	ADD $192, RSP
WORD $0xd65f03c0
	SUB $192, RSP
WORD $0x2a1f03e0
WORD $0x17fffff6
	ADD $192, RSP
	// 105736: rtpw_write
DWORD $0xf100005f39414829
DWORD $0x9a9f010852820008
DWORD $0x3943442934000149
DWORD $0x7941342934000229
DWORD $0x5400014c7102cd3f
DWORD $0x7101693f340001a9
DWORD $0x1400009b54000160
DWORD $0x8b080041aa0103e0
DWORD $0xaa0403e3aa0303e2
DWORD $0x7104393f17ffca8b
DWORD $0x7102d13f54000060
DWORD $0x3943542954001241
DWORD $0xb940782934000069
DWORD $0x39435829340011c9
DWORD $0xb940882934000069
DWORD $0x39434c2934001149
DWORD $0x3942982934000089
DWORD $0x373810a91101fd29
DWORD $0x340003c939436029
DWORD $0xaa0103e94f01e400
DWORD $0x3cca8d214f04e4a2
DWORD $0x4f07e4c44f06e4c3
WORD $0x4f07e6c5
	MOVD $rtp_wire_constants<>+128(SB), R10
WORD $0x4ea01c20
DWORD $0x4e2384224e228400
DWORD $0x6e2034804f02e7e3
DWORD $0x6e238c216e2234a2
DWORD $0x4e611c004e201c40
DWORD $0x4e211c003dc00141
DWORD $0x4e0138006e004001
DWORD $0x1e26000a4e71b800
DWORD $0x5ac0014a3210014a
DWORD $0x386a49295ac0114a
DWORD $0x3943642935000cc9
DWORD $0xaa0103e934000649
DWORD $0x3400026a384b9d2a
DWORD $0x3400026a3942e82a
DWORD $0x3400026a3942ec2a
DWORD $0x3400026a3942f02a
DWORD $0x3400026a3942f42a
DWORD $0x3400026a3942f82a
DWORD $0x3400026a3942fc2a
DWORD $0x3400026a3943002a
DWORD $0x35000a2a3943042a
DWORD $0x140000105280010a
DWORD $0x1400000eaa1f03ea
DWORD $0x1400000c5280002a
DWORD $0x1400000a5280004a
DWORD $0x140000085280006a
DWORD $0x140000065280008a
DWORD $0x14000004528000aa
DWORD $0x14000002528000ca
DWORD $0xb40001aa528000ea
DWORD $0xd100054a3840152b
DWORD $0x54ffff8071017d7f
DWORD $0x7100299f5100c16c
DWORD $0x121a796b54ffff23
DWORD $0x7100697f5101056b
DWORD $0x1400003354fffea3
DWORD $0x3400066939436829
DWORD $0x384c2d2aaa0103e9
DWORD $0x39430c2a3400026a
DWORD $0x3943102a3400026a
DWORD $0x3943142a3400026a
DWORD $0x3943182a3400026a
DWORD $0x39431c2a3400026a
DWORD $0x3943202a3400026a
DWORD $0x3943242a3400026a
DWORD $0x3943282a3400026a
DWORD $0x5280010a350003ca
DWORD $0xaa1f03ea14000010
DWORD $0x5280002a1400000e
DWORD $0x5280004a1400000c
DWORD $0x5280006a1400000a
DWORD $0x5280008a14000008
DWORD $0x528000aa14000006
DWORD $0x528000ca14000004
DWORD $0x528000ea14000002
DWORD $0x3840152bb40001ca
DWORD $0x71017d7fd100054a
DWORD $0x5100c16c54ffff80
DWORD $0x54ffff237100299f
DWORD $0x5101056b121a796b
DWORD $0x54fffea37100697f
DWORD $0xd65f03c052800120
DWORD $0x910160258b080042
WORD $0x17ffcbc3
	// 106428: rtpw_set_element
WORD $0x8b030088
DWORD $0x54000048eb00011f
DWORD $0x8b00002817ffe78a
DWORD $0x54ffffa9eb03011f
DWORD $0xb4ffff64b4ffff81
DWORD $0xd65f03c052800120
	// 106472: rtpw_put_element
DWORD $0xeb00011f8b0400a8
DWORD $0x17ffe18b54000048
DWORD $0xeb04011f8b000028
DWORD $0xb4ffff8154ffffa9
DWORD $0x52800120b4ffff65
WORD $0xd65f03c0
	// 106516: rtpw_add_element
WORD $0x8b0400a8
DWORD $0x54000048eb00011f
DWORD $0x8b00002817ffd9c3
DWORD $0x54ffffa9eb04011f
DWORD $0xb4ffff65b4ffff81
DWORD $0xd65f03c052800120
	// 106560: rtpw_put_block
DWORD $0xeb00011f8b0400a8
DWORD $0x17ffe0b854000048
DWORD $0xeb04011f8b000028
DWORD $0xb4ffff8154ffffa9
DWORD $0x52800120b4ffff65
WORD $0xd65f03c0
	// 106604: rtpw_write_with_form
WORD $0x8b010049
DWORD $0xeb06013ff9400be8
DWORD $0xf9000be854000068
DWORD $0x8b0600e917fffdf4
DWORD $0x54ffff89eb01013f
DWORD $0xb4ffff47b4ffff62
DWORD $0xd65f03c052800120
	// 106656: rtpw_write_elements
DWORD $0xeb05011f8b000028
DWORD $0x17ffd72b54000048
DWORD $0xeb00011f8b0500c8
DWORD $0xb4ffff8154ffffa9
DWORD $0x52800120b4ffff66
DWORD $0xd503201fd65f03c0
	// 106704: memmove
DWORD $0x540003a9f100405f
DWORD $0x3dc00023d1004046
DWORD $0xf100805f3ce66822
DWORD $0xd1008045540002a9
DWORD $0x3dc00425cb010003
DWORD $0xeb02007f3ce56824
DWORD $0xf10080bf54000443
DWORD $0x9100402454000169
DWORD $0xd280040291004003
DWORD $0x3ce268803ce26821
DWORD $0x3ca268603ca26801
DWORD $0xeb0200bf91008042
DWORD $0x3d80040554ffff48
DWORD $0x3d8000033ca56804
DWORD $0xd65f03c03ca66802
DWORD $0x54000128f1001c5f
DWORD $0x540003a9f1000c5f
DWORD $0xb9400023d1001042
DWORD $0xb9000003b8626821
DWORD $0xd65f03c0b8226801
DWORD $0xf9400023d1002042
DWORD $0xf9000003f8626821
DWORD $0xd65f03c0f8226801
DWORD $0x91004024aa0503e2
DWORD $0xf10080bf91004003
DWORD $0xd503201f54fffce9
DWORD $0x3ce26821d1008042
DWORD $0x3ca268013ce26880
DWORD $0xf100805f3ca26860
DWORD $0x3d80040554ffff48
DWORD $0x17ffffde3ca56804
DWORD $0x540000e9f100045f
DWORD $0x79400023d1000842
DWORD $0x7900000378626821
DWORD $0xd65f03c078226801
DWORD $0x39400021b4fffae2
DWORD $0xd65f03c039000001
DWORD $0xd503201fd503201f
	// 107008: memcpy
DWORD $0xd503201f17ffffb4
DWORD $0xd503201fd503201f
	// 107024: memset
DWORD $0xb200c3e392401c21
DWORD $0xf1003c5f9b037c21
DWORD $0x4e080c20540003a9
DWORD $0x3d8000008b020001
DWORD $0xf100805f3c9f0020
DWORD $0xd1008044540002c9
DWORD $0x3ca468003d800400
DWORD $0x54000229f100809f
DWORD $0xd2800405d1010442
DWORD $0xcb0000a5927ae442
DWORD $0x910080018b000042
DWORD $0xd503201f91018042
DWORD $0xad0000208b0100a3
DWORD $0x54000049eb03009f
DWORD $0x91010021ad010020
DWORD $0x54ffff21eb02003f
DWORD $0xf1001c5fd65f03c0
DWORD $0xf1000c5f540000e8
DWORD $0x8b02000254000129
DWORD $0xb81fc041b9000001
DWORD $0x8b020002d65f03c0
DWORD $0xf81f8041f9000001
DWORD $0xf100045fd65f03c0
DWORD $0x8b020002540000c9
DWORD $0x7900000112003c21
DWORD $0xd65f03c0781fe041
DWORD $0x39000001b4fffd82
DWORD $0xd503201fd65f03c0
DWORD $0xd503201fd503201f
DWORD $0xd503201fd503201f

DATA rtp_wire_constants<>+0(SB)/8, $0x64
DATA rtp_wire_constants<>+8(SB)/8, $0x6010300
DATA rtp_wire_constants<>+16(SB)/8, $0x5000b0a
DATA rtp_wire_constants<>+24(SB)/8, $0xfffafff9
DATA rtp_wire_constants<>+32(SB)/8, $0x3f000100ff
DATA rtp_wire_constants<>+40(SB)/8, $0xfffcfffbfffa0000
DATA rtp_wire_constants<>+48(SB)/8, $0xd1bc8572a3abb533
DATA rtp_wire_constants<>+56(SB)/8, $0x3344047d8e00d7dc
DATA rtp_wire_constants<>+64(SB)/8, $0xded4bf8674a7afb8
DATA rtp_wire_constants<>+72(SB)/8, $0xb83344047e8e00d9
DATA rtp_wire_constants<>+80(SB)/8, $0xdadfd4bf8875a6ae
DATA rtp_wire_constants<>+88(SB)/8, $0xb1ba334404809100
DATA rtp_wire_constants<>+96(SB)/8, $0xdbe0d6c18876a9
DATA rtp_wire_constants<>+104(SB)/8, $0xd503201f44048090
DATA rtp_wire_constants<>+112(SB)/8, $0x1
DATA rtp_wire_constants<>+120(SB)/8, $0x0
DATA rtp_wire_constants<>+128(SB)/8, $0x8040201008040201
DATA rtp_wire_constants<>+136(SB)/8, $0x8040201008040201
DATA rtp_wire_constants<>+144(SB)/8, $0x706050403020100
DATA rtp_wire_constants<>+152(SB)/8, $0xf0e0d0c0b0a0908
DATA rtp_wire_constants<>+160(SB)/8, $0x1716151413121110
DATA rtp_wire_constants<>+168(SB)/8, $0x1f1e1d1c1b1a1918
DATA rtp_wire_constants<>+176(SB)/8, $0x2726252423222120
DATA rtp_wire_constants<>+184(SB)/8, $0x2f2e2d2c2b2a2928
DATA rtp_wire_constants<>+192(SB)/8, $0x3736353433323130
DATA rtp_wire_constants<>+200(SB)/8, $0x3f3e3d3c3b3a3938
DATA rtp_wire_constants<>+208(SB)/8, $0x4746454443424140
DATA rtp_wire_constants<>+216(SB)/8, $0x4f4e4d4c4b4a4948
DATA rtp_wire_constants<>+224(SB)/8, $0x5756555453525150
DATA rtp_wire_constants<>+232(SB)/8, $0x5f5e5d5c5b5a5958
DATA rtp_wire_constants<>+240(SB)/8, $0x6766656463626160
DATA rtp_wire_constants<>+248(SB)/8, $0x6f6e6d6c6b6a6968
DATA rtp_wire_constants<>+256(SB)/8, $0x7776757473727170
DATA rtp_wire_constants<>+264(SB)/8, $0x7f7e7d7c7b7a7978
DATA rtp_wire_constants<>+272(SB)/8, $0x8786858483828180
DATA rtp_wire_constants<>+280(SB)/8, $0x8f8e8d8c8b8a8988
DATA rtp_wire_constants<>+288(SB)/8, $0x9796959493929190
DATA rtp_wire_constants<>+296(SB)/8, $0x9f9e9d9c9b9a9998
DATA rtp_wire_constants<>+304(SB)/8, $0xa7a6a5a4a3a2a1a0
DATA rtp_wire_constants<>+312(SB)/8, $0xafaeadacabaaa9a8
DATA rtp_wire_constants<>+320(SB)/8, $0xb7b6b5b4b3b2b1b0
DATA rtp_wire_constants<>+328(SB)/8, $0xbfbebdbcbbbab9b8
DATA rtp_wire_constants<>+336(SB)/8, $0xc7c6c5c4c3c2c1c0
DATA rtp_wire_constants<>+344(SB)/8, $0xcfcecdcccbcac9c8
DATA rtp_wire_constants<>+352(SB)/8, $0xd7d6d5d4d3d2d1d0
DATA rtp_wire_constants<>+360(SB)/8, $0xdfdedddcdbdad9d8
DATA rtp_wire_constants<>+368(SB)/8, $0xe7e6e5e4e3e2e1e0
DATA rtp_wire_constants<>+376(SB)/8, $0xefeeedecebeae9e8
DATA rtp_wire_constants<>+384(SB)/8, $0xf7f6f5f4f3f2f1f0
DATA rtp_wire_constants<>+392(SB)/8, $0xfffefdfcfbfaf9f8
DATA rtp_wire_constants<>+400(SB)/8, $0xfffffff0ffffffe8
DATA rtp_wire_constants<>+408(SB)/8, $0xfffffff8
DATA rtp_wire_constants<>+416(SB)/8, $0xfffffff8fffffff0
DATA rtp_wire_constants<>+424(SB)/8, $0xffffffe800000000
DATA rtp_wire_constants<>+432(SB)/8, $0x3830282018100800
DATA rtp_wire_constants<>+440(SB)/8, $0xffffffffffffffff
DATA rtp_wire_constants<>+448(SB)/8, $0x772f2f3a70747468
DATA rtp_wire_constants<>+456(SB)/8, $0x74726265772e7777
DATA rtp_wire_constants<>+464(SB)/8, $0x78652f67726f2e63
DATA rtp_wire_constants<>+472(SB)/8, $0x746e656d69726570
DATA rtp_wire_constants<>+480(SB)/8, $0x64682d7074722f73
DATA rtp_wire_constants<>+488(SB)/8, $0x7362612f74786572
DATA rtp_wire_constants<>+496(SB)/8, $0x732d7362612f7478
DATA rtp_wire_constants<>+504(SB)/8, $0x656d69742d646e65
DATA rtp_wire_constants<>+512(SB)/8, $0x667465693a6e7275
DATA rtp_wire_constants<>+520(SB)/8, $0x3a736d617261703a
DATA rtp_wire_constants<>+528(SB)/8, $0x657264682d707472
DATA rtp_wire_constants<>+536(SB)/8, $0x362d70746e3a7478
DATA rtp_wire_constants<>+544(SB)/8, $0x78657264682d7074
DATA rtp_wire_constants<>+552(SB)/8, $0x34362d70746e3a74
DATA rtp_wire_constants<>+560(SB)/8, $0x657264682d707472
DATA rtp_wire_constants<>+568(SB)/8, $0x352d70746e3a7478
DATA rtp_wire_constants<>+576(SB)/8, $0x78657264682d7074
DATA rtp_wire_constants<>+584(SB)/8, $0x36352d70746e3a74
DATA rtp_wire_constants<>+592(SB)/8, $0x64682d7074722f73
DATA rtp_wire_constants<>+600(SB)/8, $0x616c702f74786572
DATA rtp_wire_constants<>+608(SB)/8, $0x6f79616c702f7478
DATA rtp_wire_constants<>+616(SB)/8, $0x79616c65642d7475
DATA rtp_wire_constants<>+624(SB)/8, $0x8e89517b758025
DATA rtp_wire_constants<>+632(SB)/8, $0x2606065c299c60b4
DATA rtp_wire_constants<>+640(SB)/8, $0xc2009a9254827b88
DATA rtp_wire_constants<>+648(SB)/8, $0x5c219807602ba965
DATA rtp_wire_constants<>+656(SB)/8, $0x9a57a1728f774c61
DATA rtp_wire_constants<>+664(SB)/8, $0x6e67213d00855245
DATA rtp_wire_constants<>+672(SB)/8, $0x58488d61947e3e51
DATA rtp_wire_constants<>+680(SB)/8, $0x1c0035ef00003a86
DATA rtp_wire_constants<>+688(SB)/8, $0x8301434202c240c
DATA rtp_wire_constants<>+696(SB)/8, $0x183b2a3218042810
DATA rtp_wire_constants<>+704(SB)/8, $0x5321128727904a09
DATA rtp_wire_constants<>+712(SB)/8, $0x4262546d00000007
DATA rtp_wire_constants<>+720(SB)/8, $0x4b3d7e4f83687972
DATA rtp_wire_constants<>+728(SB)/8, $0x19
DATA rtp_wire_constants<>+736(SB)/8, $0xef000000000000
DATA rtp_wire_constants<>+744(SB)/8, $0x4b0037
DATA rtp_wire_constants<>+752(SB)/8, $0x0
DATA rtp_wire_constants<>+760(SB)/8, $0x81000000770000
DATA rtp_wire_constants<>+768(SB)/8, $0x0
DATA rtp_wire_constants<>+776(SB)/8, $0x0
DATA rtp_wire_constants<>+784(SB)/8, $0x2d009f000000af
DATA rtp_wire_constants<>+792(SB)/8, $0xa3004100000055
DATA rtp_wire_constants<>+800(SB)/8, $0x11d000000230000
DATA rtp_wire_constants<>+808(SB)/8, $0x0
DATA rtp_wire_constants<>+816(SB)/8, $0x9500000000008b
DATA rtp_wire_constants<>+824(SB)/8, $0x0
DATA rtp_wire_constants<>+832(SB)/8, $0x0
DATA rtp_wire_constants<>+840(SB)/8, $0x0
DATA rtp_wire_constants<>+848(SB)/8, $0x3c370011012a0000
DATA rtp_wire_constants<>+856(SB)/8, $0x22503354414b4626
DATA rtp_wire_constants<>+864(SB)/8, $0x3b5648293600132f
DATA rtp_wire_constants<>+872(SB)/8, $0x304522e255a325e
DATA rtp_wire_constants<>+880(SB)/8, $0x5f5f5f5f5f5f5f5f
DATA rtp_wire_constants<>+888(SB)/8, $0x5f5f5f5f5f5f5f5f
DATA rtp_wire_constants<>+896(SB)/8, $0x5f5f5f5f5f5f5f5f
DATA rtp_wire_constants<>+904(SB)/8, $0x5f5f5f5f5f5f5f5f
DATA rtp_wire_constants<>+912(SB)/8, $0x5f5f5f5f5f5f5f5f
DATA rtp_wire_constants<>+920(SB)/8, $0x5f5f5f5f5f5f5f5f
DATA rtp_wire_constants<>+928(SB)/8, $0x3736353433323130
DATA rtp_wire_constants<>+936(SB)/8, $0x5f5f5f5f5f5f3938
DATA rtp_wire_constants<>+944(SB)/8, $0x474645444342415f
DATA rtp_wire_constants<>+952(SB)/8, $0x4f4e4d4c4b4a4948
DATA rtp_wire_constants<>+960(SB)/8, $0x5756555453525150
DATA rtp_wire_constants<>+968(SB)/8, $0x5f5f5f5f5f5a5958
DATA rtp_wire_constants<>+976(SB)/8, $0x676665646362615f
DATA rtp_wire_constants<>+984(SB)/8, $0x6f6e6d6c6b6a6968
DATA rtp_wire_constants<>+992(SB)/8, $0x7776757473727170
DATA rtp_wire_constants<>+1000(SB)/8, $0x5f5f5f5f5f7a7978
DATA rtp_wire_constants<>+1008(SB)/8, $0x5f5f5f5f5f5f5f5f
DATA rtp_wire_constants<>+1016(SB)/8, $0x5f5f5f5f5f5f5f5f
DATA rtp_wire_constants<>+1024(SB)/8, $0x5f5f5f5f5f5f5f5f
DATA rtp_wire_constants<>+1032(SB)/8, $0x5f5f5f5f5f5f5f5f
DATA rtp_wire_constants<>+1040(SB)/8, $0x5f5f5f5f5f5f5f5f
DATA rtp_wire_constants<>+1048(SB)/8, $0x5f5f5f5f5f5f5f5f
DATA rtp_wire_constants<>+1056(SB)/8, $0x5f5f5f5f5f5f5f5f
DATA rtp_wire_constants<>+1064(SB)/8, $0x5f5f5f5f5f5f5f5f
DATA rtp_wire_constants<>+1072(SB)/8, $0x5f5f5f5f5f5f5f5f
DATA rtp_wire_constants<>+1080(SB)/8, $0x5f5f5f5f5f5f5f5f
DATA rtp_wire_constants<>+1088(SB)/8, $0x5f5f5f5f5f5f5f5f
DATA rtp_wire_constants<>+1096(SB)/8, $0x5f5f5f5f5f5f5f5f
DATA rtp_wire_constants<>+1104(SB)/8, $0x5f5f5f5f5f5f5f5f
DATA rtp_wire_constants<>+1112(SB)/8, $0x5f5f5f5f5f5f5f5f
DATA rtp_wire_constants<>+1120(SB)/8, $0x5f5f5f5f5f5f5f5f
DATA rtp_wire_constants<>+1128(SB)/8, $0x5f5f5f5f5f5f5f5f
DATA rtp_wire_constants<>+1136(SB)/8, $0x0
DATA rtp_wire_constants<>+1144(SB)/8, $0x0
DATA rtp_wire_constants<>+1152(SB)/8, $0x0
DATA rtp_wire_constants<>+1160(SB)/8, $0x0
DATA rtp_wire_constants<>+1168(SB)/8, $0x0
DATA rtp_wire_constants<>+1176(SB)/8, $0x0
DATA rtp_wire_constants<>+1184(SB)/8, $0x0
DATA rtp_wire_constants<>+1192(SB)/8, $0x0
DATA rtp_wire_constants<>+1200(SB)/8, $0x0
DATA rtp_wire_constants<>+1208(SB)/8, $0x0
DATA rtp_wire_constants<>+1216(SB)/8, $0x0
DATA rtp_wire_constants<>+1224(SB)/8, $0x0
DATA rtp_wire_constants<>+1232(SB)/8, $0x0
DATA rtp_wire_constants<>+1240(SB)/8, $0x0
DATA rtp_wire_constants<>+1248(SB)/8, $0x0
DATA rtp_wire_constants<>+1256(SB)/8, $0x0
DATA rtp_wire_constants<>+1264(SB)/8, $0x0
DATA rtp_wire_constants<>+1272(SB)/8, $0x0
DATA rtp_wire_constants<>+1280(SB)/8, $0x0
DATA rtp_wire_constants<>+1288(SB)/8, $0x0
DATA rtp_wire_constants<>+1296(SB)/8, $0x0
DATA rtp_wire_constants<>+1304(SB)/8, $0x0
DATA rtp_wire_constants<>+1312(SB)/8, $0x0
DATA rtp_wire_constants<>+1320(SB)/8, $0x0
DATA rtp_wire_constants<>+1328(SB)/8, $0x0
DATA rtp_wire_constants<>+1336(SB)/8, $0x0
DATA rtp_wire_constants<>+1344(SB)/8, $0x0
DATA rtp_wire_constants<>+1352(SB)/8, $0x0
DATA rtp_wire_constants<>+1360(SB)/8, $0x0
DATA rtp_wire_constants<>+1368(SB)/8, $0x0
DATA rtp_wire_constants<>+1376(SB)/8, $0x0
DATA rtp_wire_constants<>+1384(SB)/8, $0x6800000000000000
DATA rtp_wire_constants<>+1392(SB)/8, $0x77772f2f3a707474
DATA rtp_wire_constants<>+1400(SB)/8, $0x6374726265772e77
DATA rtp_wire_constants<>+1408(SB)/8, $0x7078652f67726f2e
DATA rtp_wire_constants<>+1416(SB)/8, $0x73746e656d697265
DATA rtp_wire_constants<>+1424(SB)/8, $0x7264682d7074722f
DATA rtp_wire_constants<>+1432(SB)/8, $0x2d7362612f747865
DATA rtp_wire_constants<>+1440(SB)/8, $0x6d69742d646e6573
DATA rtp_wire_constants<>+1448(SB)/8, $0x2f2f3a7074746865
DATA rtp_wire_constants<>+1456(SB)/8, $0x726265772e777777
DATA rtp_wire_constants<>+1464(SB)/8, $0x652f67726f2e6374
DATA rtp_wire_constants<>+1472(SB)/8, $0x6e656d6972657078
DATA rtp_wire_constants<>+1480(SB)/8, $0x682d7074722f7374
DATA rtp_wire_constants<>+1488(SB)/8, $0x62612f7478657264
DATA rtp_wire_constants<>+1496(SB)/8, $0x7275747061632d73
DATA rtp_wire_constants<>+1504(SB)/8, $0x7275656d69742d65
DATA rtp_wire_constants<>+1512(SB)/8, $0x703a667465693a6e
DATA rtp_wire_constants<>+1520(SB)/8, $0x74723a736d617261
DATA rtp_wire_constants<>+1528(SB)/8, $0x7478657264682d70
DATA rtp_wire_constants<>+1536(SB)/8, $0x75612d637273733a
DATA rtp_wire_constants<>+1544(SB)/8, $0x6576656c2d6f6964
DATA rtp_wire_constants<>+1552(SB)/8, $0x7465693a6e72756c
DATA rtp_wire_constants<>+1560(SB)/8, $0x736d617261703a66
DATA rtp_wire_constants<>+1568(SB)/8, $0x7264682d7074723a
DATA rtp_wire_constants<>+1576(SB)/8, $0x66666f743a747865
DATA rtp_wire_constants<>+1584(SB)/8, $0x333a6e7275746573
DATA rtp_wire_constants<>+1592(SB)/8, $0x656469763a707067
DATA rtp_wire_constants<>+1600(SB)/8, $0x746e6569726f2d6f
DATA rtp_wire_constants<>+1608(SB)/8, $0x7474686e6f697461
DATA rtp_wire_constants<>+1616(SB)/8, $0x2e7777772f2f3a70
DATA rtp_wire_constants<>+1624(SB)/8, $0x67726f2e66746569
DATA rtp_wire_constants<>+1632(SB)/8, $0x666172642f64692f
DATA rtp_wire_constants<>+1640(SB)/8, $0x72656d6c6f682d74
DATA rtp_wire_constants<>+1648(SB)/8, $0x742d7461636d722d
DATA rtp_wire_constants<>+1656(SB)/8, $0x74726f70736e6172
DATA rtp_wire_constants<>+1664(SB)/8, $0x63632d656469772d
DATA rtp_wire_constants<>+1672(SB)/8, $0x69736e657478652d
DATA rtp_wire_constants<>+1680(SB)/8, $0x746831302d736e6f
DATA rtp_wire_constants<>+1688(SB)/8, $0x7777772f2f3a7074
DATA rtp_wire_constants<>+1696(SB)/8, $0x2e6374726265772e
DATA rtp_wire_constants<>+1704(SB)/8, $0x657078652f67726f
DATA rtp_wire_constants<>+1712(SB)/8, $0x2f73746e656d6972
DATA rtp_wire_constants<>+1720(SB)/8, $0x657264682d707472
DATA rtp_wire_constants<>+1728(SB)/8, $0x6f79616c702f7478
DATA rtp_wire_constants<>+1736(SB)/8, $0x79616c65642d7475
DATA rtp_wire_constants<>+1744(SB)/8, $0x772f2f3a70747468
DATA rtp_wire_constants<>+1752(SB)/8, $0x74726265772e7777
DATA rtp_wire_constants<>+1760(SB)/8, $0x78652f67726f2e63
DATA rtp_wire_constants<>+1768(SB)/8, $0x746e656d69726570
DATA rtp_wire_constants<>+1776(SB)/8, $0x64682d7074722f73
DATA rtp_wire_constants<>+1784(SB)/8, $0x6469762f74786572
DATA rtp_wire_constants<>+1792(SB)/8, $0x65746e6f632d6f65
DATA rtp_wire_constants<>+1800(SB)/8, $0x68657079742d746e
DATA rtp_wire_constants<>+1808(SB)/8, $0x77772f2f3a707474
DATA rtp_wire_constants<>+1816(SB)/8, $0x6374726265772e77
DATA rtp_wire_constants<>+1824(SB)/8, $0x7078652f67726f2e
DATA rtp_wire_constants<>+1832(SB)/8, $0x73746e656d697265
DATA rtp_wire_constants<>+1840(SB)/8, $0x7264682d7074722f
DATA rtp_wire_constants<>+1848(SB)/8, $0x656469762f747865
DATA rtp_wire_constants<>+1856(SB)/8, $0x676e696d69742d6f
DATA rtp_wire_constants<>+1864(SB)/8, $0x667465693a6e7275
DATA rtp_wire_constants<>+1872(SB)/8, $0x3a736d617261703a
DATA rtp_wire_constants<>+1880(SB)/8, $0x657264682d707472
DATA rtp_wire_constants<>+1888(SB)/8, $0x3a736564733a7478
DATA rtp_wire_constants<>+1896(SB)/8, $0x657274732d707472
DATA rtp_wire_constants<>+1904(SB)/8, $0x6e727564692d6d61
DATA rtp_wire_constants<>+1912(SB)/8, $0x61703a667465693a
DATA rtp_wire_constants<>+1920(SB)/8, $0x7074723a736d6172
DATA rtp_wire_constants<>+1928(SB)/8, $0x3a7478657264682d
DATA rtp_wire_constants<>+1936(SB)/8, $0x7065723a73656473
DATA rtp_wire_constants<>+1944(SB)/8, $0x74722d6465726961
DATA rtp_wire_constants<>+1952(SB)/8, $0x6d61657274732d70
DATA rtp_wire_constants<>+1960(SB)/8, $0x693a6e727564692d
DATA rtp_wire_constants<>+1968(SB)/8, $0x617261703a667465
DATA rtp_wire_constants<>+1976(SB)/8, $0x682d7074723a736d
DATA rtp_wire_constants<>+1984(SB)/8, $0x64733a7478657264
DATA rtp_wire_constants<>+1992(SB)/8, $0x746864696d3a7365
DATA rtp_wire_constants<>+2000(SB)/8, $0x6f6f742f2f3a7074
DATA rtp_wire_constants<>+2008(SB)/8, $0x2e667465692e736c
DATA rtp_wire_constants<>+2016(SB)/8, $0x6c6d74682f67726f
DATA rtp_wire_constants<>+2024(SB)/8, $0x692d74666172642f
DATA rtp_wire_constants<>+2032(SB)/8, $0x657476612d667465
DATA rtp_wire_constants<>+2040(SB)/8, $0x656d6172662d7478
DATA rtp_wire_constants<>+2048(SB)/8, $0x2d676e696b72616d
DATA rtp_wire_constants<>+2056(SB)/8, $0x2f3a707474683730
DATA rtp_wire_constants<>+2064(SB)/8, $0x6265772e7777772f
DATA rtp_wire_constants<>+2072(SB)/8, $0x2f67726f2e637472
DATA rtp_wire_constants<>+2080(SB)/8, $0x656d697265707865
DATA rtp_wire_constants<>+2088(SB)/8, $0x2d7074722f73746e
DATA rtp_wire_constants<>+2096(SB)/8, $0x632f747865726468
DATA rtp_wire_constants<>+2104(SB)/8, $0x6170732d726f6c6f
DATA rtp_wire_constants<>+2112(SB)/8, $0x2f3a707474686563
DATA rtp_wire_constants<>+2120(SB)/8, $0x6265772e7777772f
DATA rtp_wire_constants<>+2128(SB)/8, $0x2f67726f2e637472
DATA rtp_wire_constants<>+2136(SB)/8, $0x656d697265707865
DATA rtp_wire_constants<>+2144(SB)/8, $0x2d7074722f73746e
DATA rtp_wire_constants<>+2152(SB)/8, $0x762f747865726468
DATA rtp_wire_constants<>+2160(SB)/8, $0x79616c2d6f656469
DATA rtp_wire_constants<>+2168(SB)/8, $0x6f6c6c612d737265
DATA rtp_wire_constants<>+2176(SB)/8, $0x30306e6f69746163
DATA rtp_wire_constants<>+2184(SB)/8, $0x667465693a6e7275
DATA rtp_wire_constants<>+2192(SB)/8, $0x3a736d617261703a
DATA rtp_wire_constants<>+2200(SB)/8, $0x657264682d707472
DATA rtp_wire_constants<>+2208(SB)/8, $0x2d637273633a7478
DATA rtp_wire_constants<>+2216(SB)/8, $0x656c2d6f69647561
DATA rtp_wire_constants<>+2224(SB)/8, $0x3a707474686c6576
DATA rtp_wire_constants<>+2232(SB)/8, $0x65772e7777772f2f
DATA rtp_wire_constants<>+2240(SB)/8, $0x67726f2e63747262
DATA rtp_wire_constants<>+2248(SB)/8, $0x6d6972657078652f
DATA rtp_wire_constants<>+2256(SB)/8, $0x7074722f73746e65
DATA rtp_wire_constants<>+2264(SB)/8, $0x2f7478657264682d
DATA rtp_wire_constants<>+2272(SB)/8, $0x726f70736e617274
DATA rtp_wire_constants<>+2280(SB)/8, $0x632d656469772d74
DATA rtp_wire_constants<>+2288(SB)/8, $0x7074746832302d63
DATA rtp_wire_constants<>+2296(SB)/8, $0x656d6f612f2f3a73
DATA rtp_wire_constants<>+2304(SB)/8, $0x6365646f63616964
DATA rtp_wire_constants<>+2312(SB)/8, $0x2e6275687469672e
DATA rtp_wire_constants<>+2320(SB)/8, $0x722d3176612f6f69
DATA rtp_wire_constants<>+2328(SB)/8, $0x2f636570732d7074
DATA rtp_wire_constants<>+2336(SB)/8, $0x65646e6570656423
DATA rtp_wire_constants<>+2344(SB)/8, $0x637365642d79636e
DATA rtp_wire_constants<>+2352(SB)/8, $0x722d726f74706972
DATA rtp_wire_constants<>+2360(SB)/8, $0x65646165682d7074
DATA rtp_wire_constants<>+2368(SB)/8, $0x736e657478652d72
DATA rtp_wire_constants<>+2376(SB)/8, $0x693a6e72756e6f69
DATA rtp_wire_constants<>+2384(SB)/8, $0x617261703a667465
DATA rtp_wire_constants<>+2392(SB)/8, $0x682d7074723a736d
DATA rtp_wire_constants<>+2400(SB)/8, $0x746e3a7478657264
DATA rtp_wire_constants<>+2408(SB)/8, $0x3a6e727534362d70
DATA rtp_wire_constants<>+2416(SB)/8, $0x7261703a66746569
DATA rtp_wire_constants<>+2424(SB)/8, $0x2d7074723a736d61
DATA rtp_wire_constants<>+2432(SB)/8, $0x6e3a747865726468
DATA rtp_wire_constants<>+2440(SB)/8, $0x3201f36352d7074
DATA rtp_wire_constants<>+2448(SB)/8, $0x200000001
DATA rtp_wire_constants<>+2456(SB)/8, $0x400000003
DATA rtp_wire_constants<>+2464(SB)/8, $0xd503201f00000006
DATA rtp_wire_constants<>+2472(SB)/8, $0x12
DATA rtp_wire_constants<>+2480(SB)/8, $0x12
DATA rtp_wire_constants<>+2488(SB)/8, $0x12
DATA rtp_wire_constants<>+2496(SB)/8, $0x12
DATA rtp_wire_constants<>+2504(SB)/8, $0x12
DATA rtp_wire_constants<>+2512(SB)/8, $0x12
DATA rtp_wire_constants<>+2520(SB)/8, $0x12
DATA rtp_wire_constants<>+2528(SB)/8, $0x12
DATA rtp_wire_constants<>+2536(SB)/8, $0x12
DATA rtp_wire_constants<>+2544(SB)/8, $0x12
DATA rtp_wire_constants<>+2552(SB)/8, $0x12
DATA rtp_wire_constants<>+2560(SB)/8, $0x12
DATA rtp_wire_constants<>+2568(SB)/8, $0x12
DATA rtp_wire_constants<>+2576(SB)/8, $0x12
DATA rtp_wire_constants<>+2584(SB)/8, $0x101
DATA rtp_wire_constants<>+2592(SB)/8, $0x3a
DATA rtp_wire_constants<>+2600(SB)/8, $0x3d
DATA rtp_wire_constants<>+2608(SB)/8, $0x2b
DATA rtp_wire_constants<>+2616(SB)/8, $0x22
DATA rtp_wire_constants<>+2624(SB)/8, $0x1a
DATA rtp_wire_constants<>+2632(SB)/8, $0x49
DATA rtp_wire_constants<>+2640(SB)/8, $0x3a
DATA rtp_wire_constants<>+2648(SB)/8, $0x3f
DATA rtp_wire_constants<>+2656(SB)/8, $0x39
DATA rtp_wire_constants<>+2664(SB)/8, $0x2d
DATA rtp_wire_constants<>+2672(SB)/8, $0x36
DATA rtp_wire_constants<>+2680(SB)/8, $0x23
DATA rtp_wire_constants<>+2688(SB)/8, $0x3c
DATA rtp_wire_constants<>+2696(SB)/8, $0x38
DATA rtp_wire_constants<>+2704(SB)/8, $0x46
DATA rtp_wire_constants<>+2712(SB)/8, $0x2b
DATA rtp_wire_constants<>+2720(SB)/8, $0x41
DATA rtp_wire_constants<>+2728(SB)/8, $0x57
DATA rtp_wire_constants<>+2736(SB)/8, $0x21
DATA rtp_wire_constants<>+2744(SB)/8, $0x21
GLOBL rtp_wire_constants<>(SB), RODATA, $2752

DATA rtp_wire_table<>+0(SB)/8, $rtp_wire_constants<>+1391(SB)
DATA rtp_wire_table<>+8(SB)/8, $rtp_wire_constants<>+1449(SB)
DATA rtp_wire_table<>+16(SB)/8, $rtp_wire_constants<>+1510(SB)
DATA rtp_wire_table<>+24(SB)/8, $rtp_wire_constants<>+1553(SB)
DATA rtp_wire_table<>+32(SB)/8, $rtp_wire_constants<>+1587(SB)
DATA rtp_wire_table<>+40(SB)/8, $rtp_wire_constants<>+1613(SB)
DATA rtp_wire_table<>+48(SB)/8, $rtp_wire_constants<>+1686(SB)
DATA rtp_wire_table<>+56(SB)/8, $rtp_wire_constants<>+1744(SB)
DATA rtp_wire_table<>+64(SB)/8, $rtp_wire_constants<>+1807(SB)
DATA rtp_wire_table<>+72(SB)/8, $rtp_wire_constants<>+1864(SB)
DATA rtp_wire_table<>+80(SB)/8, $rtp_wire_constants<>+1909(SB)
DATA rtp_wire_table<>+88(SB)/8, $rtp_wire_constants<>+1963(SB)
DATA rtp_wire_table<>+96(SB)/8, $rtp_wire_constants<>+1998(SB)
DATA rtp_wire_table<>+104(SB)/8, $rtp_wire_constants<>+2058(SB)
DATA rtp_wire_table<>+112(SB)/8, $rtp_wire_constants<>+2114(SB)
DATA rtp_wire_table<>+120(SB)/8, $rtp_wire_constants<>+2184(SB)
DATA rtp_wire_table<>+128(SB)/8, $rtp_wire_constants<>+2227(SB)
DATA rtp_wire_table<>+136(SB)/8, $rtp_wire_constants<>+2292(SB)
DATA rtp_wire_table<>+144(SB)/8, $rtp_wire_constants<>+2379(SB)
DATA rtp_wire_table<>+152(SB)/8, $rtp_wire_constants<>+2412(SB)
GLOBL rtp_wire_table<>(SB), RODATA, $160
