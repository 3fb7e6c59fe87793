.class public Lgen/A2;
.super Ljava/lang/Object;
.method public static m0()V
.registers 700
:l0
if-lt v9, v12, :l204
:l1
sub-float v159, v181, v92
:l2
aput-short v65, v175, v108
:l3
rem-long v71, v134, v192
:l4
sput-object v1, Lgen/A;->f:I
:l5
const-string/jumbo v9, "four"
:l6
return v104
:l7
move-result-object v41
:l8
move-result-wide v28
:l9
shl-long v131, v185, v22
:l10
or-int v61, v26, v25
:l11
div-double/2addr v0, v2
:l12
iput-object v12, v3, Lgen/A;->f:I
:l13
sub-double v55, v6, v133
:l14
const/4 v10, 6
:l15
if-ge v7, v4, :l137
:l16
float-to-long v10, v6
:l17
rem-float/2addr v3, v10
:l18
sput-char v232, Lgen/A;->f:I
:l19
mul-float v186, v206, v111
:l20
mul-int/lit16 v6, v8, -29974
:l21
if-ltz v148, :l151
:l22
aget-short v13, v225, v107
:l23
sput-boolean v237, Lgen/C;->h:J
:l24
iput-short v9, v2, Lgen/A;->f:I
:l25
invoke-super/range {v339 .. v545}, Lgen/C;->o(DLjava/lang/String;)V
:l26
filled-new-array/range {v187 .. v192}, Ljava/util/List;
:l27
add-float v245, v235, v30
:l28
add-long/2addr v9, v5
:l29
ushr-int v74, v176, v251
:l30
if-eqz v238, :l95
:l31
aget-wide v78, v4, v223
:l32
sget-char v175, Lgen/B;->g:Ljava/lang/String;
:l33
neg-float v1, v1
:l34
add-int/lit16 v4, v3, -30708
:l35
aget v207, v115, v15
:l36
if-ne v6, v10, :l124
:l37
array-length v7, v3
:l38
iput v14, v9, Lgen/C;->h:J
:l39
if-gez v18, :l1
:l40
sub-long/2addr v4, v0
:l41
invoke-interface {v4, v14}, Lgen/A;->m()V
:l42
add-long v56, v193, v125
:l43
rem-int v49, v29, v146
:l44
aput-object v95, v100, v183
:l45
rem-int/lit8 v118, v35, 48
:l46
monitor-exit v101
:l47
int-to-float v14, v1
:l48
shr-int/2addr v4, v1
:l49
throw v31
:l50
const-wide/high16 v20, 0x55a0000000000000L
:l51
cmp-long v164, v100, v245
:l52
iget-wide v3, v11, Lgen/A;->f:I
:l53
mul-int v6, v158, v168
:l54
mul-int/lit8 v120, v198, -106
:l55
fill-array-data v185, :p55
:l56
add-double v68, v123, v134
:l57
new-array v13, v7, [[J
:l58
const-class v238, [[J
:l59
div-int v214, v174, v75
:l60
neg-long v6, v3
:l61
aput-wide v40, v125, v152
:l62
shl-int/lit8 v66, v140, 90
:l63
filled-new-array {v10, v11, v14, v1, v9}, Ljava/util/List;
:l64
or-long/2addr v1, v1
:l65
xor-int/2addr v5, v2
:l66
aput-byte v139, v37, v206
:l67
sub-int/2addr v6, v14
:l68
const/16 v17, -21477
:l69
invoke-virtual {v12, v10, v0, v2, v4}, Lgen/C;->o(DLjava/lang/String;)V
:l70
iget-char v3, v11, Lgen/C;->h:J
:l71
if-eq v14, v10, :l84
:l72
nop 
:l73
xor-int v112, v44, v134
:l74
shr-int/lit8 v73, v28, -49
:l75
const v138, -327663527
:l76
return-wide v84
:l77
instance-of v8, v3, Ljava/util/List;
:l78
cmpg-double v65, v43, v229
:l79
move/from16 v40, v472
:l80
move-wide/from16 v242, v240
:l81
iput-boolean v6, v13, Lgen/B;->g:Ljava/lang/String;
:l82
move-object/from16 v200, v587
:l83
ushr-int/lit8 v186, v37, 110
:l84
move-result v112
:l85
move/16 v30, v609
:l86
iput-byte v6, v14, Lgen/C;->h:J
:l87
xor-long/2addr v2, v6
:l88
const-wide/16 v130, -25747
:l89
mul-long v123, v70, v103
:l90
and-long v64, v181, v187
:l91
int-to-double v14, v6
:l92
move-wide v11, v10
:l93
sget-object v120, Lgen/B;->g:Ljava/lang/String;
:l94
xor-int/lit16 v8, v5, -22097
:l95
rsub-int v12, v13, -3277
:l96
const-string v136, "two"
:l97
check-cast v103, [[J
:l98
div-double v250, v225, v162
:l99
return-object v234
:l100
aget-char v2, v80, v118
:l101
sput v134, Lgen/C;->h:J
:l102
invoke-static/range {v238 .. v405}, Lgen/B;->n(IJ)I
:l103
long-to-float v13, v1
:l104
monitor-enter v4
:l105
iget v6, v3, Lgen/C;->h:J
:l106
or-int/2addr v9, v9
:l107
ushr-int/2addr v6, v14
:l108
add-double/2addr v3, v14
:l109
aput-char v248, v25, v99
:l110
and-int/lit8 v208, v142, -26
:l111
move-exception v70
:l112
sub-double/2addr v11, v14
:l113
const-wide v150, -5690923448159078042L
:l114
rem-int/2addr v12, v9
:l115
move v2, v0
:l116
div-float v156, v173, v111
:l117
or-int/lit8 v123, v64, -40
:l118
invoke-direct {v11, v3, v12}, Lgen/A;->m()V
:l119
rem-double/2addr v5, v0
:l120
sub-float/2addr v14, v7
:l121
invoke-interface/range {v272 .. v487}, Lgen/A;->m()V
:l122
rem-int/lit16 v12, v9, 30801
:l123
iput-char v14, v10, Lgen/B;->g:Ljava/lang/String;
:l124
shr-long/2addr v7, v4
:l125
add-int/2addr v14, v8
:l126
aget-byte v117, v7, v252
:l127
xor-long v20, v157, v193
:l128
if-gt v5, v2, :l194
:l129
shr-long v192, v240, v200
:l130
invoke-super {v4, v10, v10}, Lgen/B;->n(IJ)I
:l131
int-to-short v0, v2
:l132
int-to-char v7, v6
:l133
double-to-long v7, v10
:l134
iget-object v4, v2, Lgen/A;->f:I
:l135
iget-byte v4, v8, Lgen/B;->g:Ljava/lang/String;
:l136
long-to-int v0, v5
:l137
mul-float/2addr v0, v8
:l138
rem-long/2addr v13, v6
:l139
div-int/lit16 v9, v7, -5975
:l140
if-nez v222, :l173
:l141
long-to-double v4, v7
:l142
sub-long v166, v34, v123
:l143
shl-int v176, v137, v182
:l144
sget v234, Lgen/B;->g:Ljava/lang/String;
:l145
or-int/lit16 v1, v4, 8267
:l146
not-long v4, v5
:l147
rem-float v165, v242, v203
:l148
mul-int/2addr v4, v10
:l149
div-float/2addr v10, v6
:l150
float-to-double v8, v13
:l151
aput-boolean v235, v23, v130
:l152
float-to-int v10, v3
:l153
aget-object v100, v152, v135
:l154
sub-int v217, v217, v38
:l155
neg-double v12, v8
:l156
sput-short v160, Lgen/A;->f:I
:l157
goto/32 :l78
:l158
rem-double v10, v59, v243
:l159
div-int/2addr v7, v8
:l160
sget-wide v59, Lgen/C;->h:J
:l161
or-long v71, v15, v245
:l162
ushr-long/2addr v1, v1
:l163
and-long/2addr v10, v13
:l164
invoke-static {v13, v5, v3}, Ljava/lang/Object;-><init>()V
:l165
not-int v5, v1
:l166
cmpl-double v85, v117, v92
:l167
div-long/2addr v2, v7
:l168
int-to-byte v7, v13
:l169
xor-int/lit8 v74, v118, -60
:l170
div-int/lit8 v235, v183, 98
:l171
mul-double/2addr v10, v3
:l172
new-instance v237, Lgen/A;
:l173
cmpl-float v83, v40, v25
:l174
iput-wide v14, v3, Lgen/B;->g:Ljava/lang/String;
:l175
mul-long/2addr v3, v12
:l176
move-wide/16 v694, v382
:l177
if-gtz v47, :l91
:l178
if-lez v35, :l203
:l179
cmpg-float v34, v59, v68
:l180
shr-int v206, v140, v162
:l181
packed-switch v96, :p181
:l182
add-int v224, v184, v237
:l183
invoke-virtual/range {v304 .. v433}, Ljava/lang/Object;-><init>()V
:l184
sput-wide v190, Lgen/B;->g:Ljava/lang/String;
:l185
iget-short v12, v11, Lgen/C;->h:J
:l186
int-to-long v14, v10
:l187
sget-byte v192, Lgen/C;->h:J
:l188
move-object v4, v8
:l189
and-int/lit16 v9, v10, -23244
:l190
aput v94, v78, v101
:l191
double-to-int v7, v2
:l192
neg-int v4, v14
:l193
and-int v90, v112, v122
:l194
sget-short v22, Lgen/A;->f:I
:l195
double-to-float v5, v6
:l196
shl-long/2addr v2, v0
:l197
sput-byte v26, Lgen/B;->g:Ljava/lang/String;
:l198
mul-double v42, v91, v19
:l199
invoke-direct/range {v374 .. v569}, Lgen/C;->o(DLjava/lang/String;)V
:l200
goto/16 :l2
:l201
shl-int/2addr v8, v5
:l202
div-long v60, v211, v213
:l203
move-object/16 v608, v399
:l204
add-int/lit8 v138, v72, 112
:l205
if-le v10, v14, :l38
:l206
ushr-long v92, v80, v51
:l207
aget-boolean v237, v127, v24
:l208
iget-boolean v2, v12, Lgen/A;->f:I
:l209
and-int/2addr v5, v4
:l210
rsub-int/lit8 v36, v107, 56
:l211
add-float/2addr v4, v1
:l212
sparse-switch v87, :p212
:l213
sget-boolean v61, Lgen/C;->h:J
:l214
const/high16 v156, 0xbfe0000
:l215
const-wide/32 v86, 1890198447
:l216
return-void 
goto :e
:e
return-void
:p55
.array-data 2
63
37
45
58
18
.end array-data
:p181
.packed-switch -1
:l206
:l210
:l191
:l87
.end packed-switch
:p212
.sparse-switch
-4 -> :l63
-1 -> :l181
.end sparse-switch
.end method
.method public static m1()V
.registers 700
:l0
add-double v121, v156, v65
:l1
or-int v157, v48, v148
:l2
int-to-byte v7, v7
:l3
add-int/2addr v3, v12
:l4
packed-switch v120, :p4
:l5
shl-int v56, v196, v157
:l6
sget-byte v167, Lgen/C;->h:J
:l7
sput v147, Lgen/A;->f:I
:l8
add-long v174, v239, v78
:l9
sput-wide v222, Lgen/A;->f:I
:l10
rem-int v137, v214, v210
:l11
invoke-interface/range {v153 .. v179}, Lgen/A;->m()V
:l12
aget-char v201, v222, v7
:l13
goto/32 :l50
:l14
rem-double/2addr v5, v0
:l15
aput v81, v136, v65
:l16
shl-int/2addr v12, v11
:l17
throw v170
:l18
and-int/lit8 v87, v210, 97
:l19
float-to-double v1, v6
:l20
sget-boolean v120, Lgen/C;->h:J
:l21
iget-object v0, v4, Lgen/C;->h:J
:l22
shr-long v147, v33, v54
:l23
sub-double/2addr v2, v2
:l24
sub-int v155, v197, v96
:l25
iget v11, v1, Lgen/C;->h:J
:l26
or-int/2addr v9, v7
:l27
rem-long v234, v71, v165
:l28
const/high16 v21, 0x7eda0000
:l29
sub-int/2addr v7, v12
:l30
const-class v201, [I
:l31
xor-int/2addr v2, v9
:l32
move-wide v4, v13
:l33
xor-int/lit16 v13, v14, -2997
:l34
invoke-static {v9}, Ljava/lang/Object;-><init>()V
:l35
sget-wide v151, Lgen/C;->h:J
:l36
move-result v179
:l37
aput-byte v100, v134, v104
:l38
invoke-virtual/range {v120 .. v285}, Lgen/B;->n(IJ)I
:l39
iget-wide v8, v0, Lgen/B;->g:Ljava/lang/String;
:l40
rem-int/lit16 v10, v3, -14634
:l41
div-long/2addr v9, v11
:l42
if-ltz v100, :l211
:l43
iput-char v6, v1, Lgen/B;->g:Ljava/lang/String;
:l44
move-object/from16 v100, v404
:l45
neg-double v7, v6
:l46
iput-wide v4, v3, Lgen/A;->f:I
:l47
invoke-static/range {v114 .. v129}, Lgen/A;->m()V
:l48
sub-float/2addr v9, v8
:l49
invoke-virtual {v0, v0, v6, v11, v6}, Lgen/C;->o(DLjava/lang/String;)V
:l50
invoke-super {v8}, Ljava/lang/Object;-><init>()V
:l51
move-object/16 v103, v373
:l52
long-to-double v8, v5
:l53
if-ge v8, v12, :l126
:l54
if-eq v9, v1, :l180
:l55
shr-long/2addr v7, v11
:l56
aget-object v179, v56, v71
:l57
add-float/2addr v0, v0
:l58
rsub-int/lit8 v122, v10, -62
:l59
cmpl-double v166, v36, v52
:l60
shl-long v82, v61, v137
:l61
ushr-long v12, v157, v37
:l62
cmpg-double v165, v75, v241
:l63
iput-object v12, v1, Lgen/C;->h:J
:l64
aput-short v142, v138, v22
:l65
move-wide/from16 v173, v686
:l66
iput-short v2, v6, Lgen/C;->h:J
:l67
const-wide v35, -4273971259637221302L
:l68
ushr-int/2addr v0, v8
:l69
double-to-long v5, v12
:l70
aput-char v87, v175, v236
:l71
move/16 v99, v620
:l72
mul-double/2addr v5, v1
:l73
aput-object v155, v200, v89
:l74
return-object v93
:l75
if-gt v12, v10, :l70
:l76
div-int/lit16 v12, v7, 4327
:l77
and-long/2addr v8, v9
:l78
aget-wide v247, v38, v6
:l79
invoke-interface {}, Ljava/lang/Object;-><init>()V
:l80
or-int/lit8 v111, v214, -124
:l81
new-instance v89, Ljava/util/List;
:l82
if-lez v183, :l12
:l83
iput-boolean v13, v10, Lgen/A;->f:I
:l84
aput-boolean v176, v138, v129
:l85
mul-int v156, v197, v111
:l86
sget-char v109, Lgen/B;->g:Ljava/lang/String;
:l87
goto/16 :l61
:l88
div-int/lit8 v202, v46, -45
:l89
mul-long/2addr v9, v0
:l90
if-le v0, v9, :l194
:l91
const/4 v11, 3
:l92
if-eqz v172, :l46
:l93
mul-int/lit8 v75, v5, -108
:l94
fill-array-data v247, :p94
:l95
const-wide/high16 v103, 0x1034000000000000L
:l96
not-int v14, v5
:l97
const-wide/16 v28, -23908
:l98
const-string v62, "two"
:l99
mul-int/2addr v8, v3
:l100
sub-double v26, v1, v177
:l101
long-to-int v6, v1
:l102
aget-byte v128, v218, v71
:l103
const v148, 651305377
:l104
int-to-char v0, v8
:l105
sput-boolean v132, Lgen/C;->h:J
:l106
sub-float v235, v103, v109
:l107
aget-short v234, v200, v32
:l108
sget-object v39, Lgen/B;->g:Ljava/lang/String;
:l109
if-ne v2, v7, :l188
:l110
or-long/2addr v5, v0
:l111
or-int/lit16 v9, v2, 24901
:l112
iget-byte v6, v9, Lgen/C;->h:J
:l113
shr-int/2addr v7, v2
:l114
cmp-long v126, v152, v253
:l115
iget-char v2, v13, Lgen/B;->g:Ljava/lang/String;
:l116
int-to-float v2, v0
:l117
rem-float v64, v180, v47
:l118
shl-long/2addr v2, v10
:l119
sub-long/2addr v6, v9
:l120
add-int/lit16 v10, v4, 25215
:l121
if-gtz v120, :l118
:l122
add-double/2addr v3, v6
:l123
check-cast v111, Lgen/A;
:l124
return-void 
:l125
add-int/lit8 v198, v56, 52
:l126
shr-int v192, v161, v243
:l127
nop 
:l128
mul-float/2addr v0, v13
:l129
sget-short v101, Lgen/C;->h:J
:l130
ushr-long/2addr v13, v0
:l131
ushr-int v109, v77, v238
:l132
div-long v215, v6, v249
:l133
and-int/lit16 v14, v8, 29789
:l134
move v9, v4
:l135
if-lt v10, v4, :l63
:l136
sub-long v119, v182, v116
:l137
xor-int/lit8 v93, v133, 108
:l138
div-double v232, v169, v63
:l139
xor-int v142, v216, v136
:l140
move-object v2, v7
:l141
new-array v4, v14, Lgen/A;
:l142
long-to-float v6, v1
:l143
rem-int/lit8 v129, v175, -3
:l144
aget v191, v248, v167
:l145
div-float/2addr v10, v6
:l146
move-result-object v29
:l147
int-to-long v6, v9
:l148
mul-int/lit16 v7, v9, 26819
:l149
xor-long/2addr v1, v11
:l150
invoke-super/range {v199 .. v315}, Ljava/lang/Object;-><init>()V
:l151
filled-new-array/range {v285 .. v375}, [I
:l152
move-wide/16 v150, v239
:l153
mul-double v170, v229, v166
:l154
if-nez v44, :l104
:l155
sget v115, Lgen/B;->g:Ljava/lang/String;
:l156
div-int/2addr v11, v11
:l157
aget-boolean v206, v44, v104
:l158
move/from16 v67, v320
:l159
neg-float v9, v14
:l160
iget-boolean v6, v4, Lgen/C;->h:J
:l161
rem-float/2addr v11, v12
:l162
const/16 v248, 1905
:l163
cmpl-float v171, v80, v170
:l164
double-to-int v0, v6
:l165
monitor-exit v151
:l166
instance-of v0, v3, [[J
:l167
or-long v25, v29, v2
:l168
and-int/2addr v13, v5
:l169
const-string/jumbo v82, "three words"
:l170
move-result-wide v187
:l171
neg-long v6, v2
:l172
add-int v191, v213, v236
:l173
sput-object v83, Lgen/A;->f:I
:l174
invoke-direct {v9, v7, v6, v9}, Lgen/B;->n(IJ)I
:l175
sparse-switch v113, :p175
:l176
not-long v0, v5
:l177
add-long/2addr v0, v4
:l178
sput-short v126, Lgen/A;->f:I
:l179
float-to-long v11, v11
:l180
rem-int/2addr v0, v0
:l181
div-int v84, v103, v122
:l182
double-to-float v10, v14
:l183
and-long v157, v248, v1
:l184
const-wide/32 v224, -1273154016
:l185
xor-long v189, v156, v83
:l186
div-float v42, v85, v77
:l187
and-int v199, v212, v100
:l188
iget-short v9, v9, Lgen/C;->h:J
:l189
mul-float v124, v119, v195
:l190
float-to-int v4, v1
:l191
int-to-double v8, v3
:l192
sput-byte v146, Lgen/B;->g:Ljava/lang/String;
:l193
move-exception v61
:l194
if-gez v92, :l216
:l195
sput-char v95, Lgen/A;->f:I
:l196
shl-int/lit8 v229, v61, -13
:l197
rem-long/2addr v3, v9
:l198
shr-int/lit8 v119, v60, 75
:l199
ushr-int/lit8 v220, v68, -24
:l200
iput-byte v8, v13, Lgen/A;->f:I
:l201
monitor-enter v0
:l202
mul-long v103, v196, v121
:l203
int-to-short v11, v5
:l204
iput v10, v2, Lgen/C;->h:J
:l205
array-length v3, v11
:l206
aput-wide v179, v155, v236
:l207
rsub-int v2, v13, 30734
:l208
neg-int v9, v0
:l209
invoke-direct/range {v375 .. v410}, Lgen/B;->n(IJ)I
:l210
return-wide v254
:l211
cmpg-float v180, v55, v0
:l212
filled-new-array {v1, v7, v12, v10}, [I
:l213
return v189
:l214
add-float v47, v69, v101
:l215
div-double/2addr v9, v13
:l216
rem-double v5, v2, v92
goto :e
:e
return-void
:p4
.packed-switch 6
:l86
:l79
:l18
:l43
:l94
.end packed-switch
:p94
.array-data 1
72
.end array-data
:p175
.sparse-switch
-4 -> :l154
.end sparse-switch
.end method
.method public static m2()V
.registers 700
:l0
long-to-int v10, v12
:l1
sput v107, Lgen/B;->g:Ljava/lang/String;
:l2
float-to-int v12, v9
:l3
sparse-switch v117, :p3
:l4
return-object v18
:l5
div-int/lit8 v144, v2, 2
:l6
iget-object v14, v6, Lgen/C;->h:J
:l7
cmpl-double v117, v185, v22
:l8
sget-char v228, Lgen/C;->h:J
:l9
or-int/lit8 v138, v120, 14
:l10
invoke-direct/range {v80 .. v328}, Lgen/B;->n(IJ)I
:l11
rem-int/2addr v5, v13
:l12
rsub-int v1, v11, -3678
:l13
sub-float/2addr v3, v6
:l14
aget v32, v248, v130
:l15
or-long v227, v48, v129
:l16
aput-object v99, v228, v208
:l17
shr-long v41, v221, v18
:l18
sput-byte v78, Lgen/B;->g:Ljava/lang/String;
:l19
float-to-double v2, v12
:l20
shl-int v131, v23, v188
:l21
const-wide v95, -5791635693475750511L
:l22
shl-long v229, v201, v141
:l23
aget-char v10, v111, v143
:l24
sput-object v8, Lgen/B;->g:Ljava/lang/String;
:l25
invoke-direct {v12, v4, v3, v2}, Lgen/C;->o(DLjava/lang/String;)V
:l26
invoke-super {v14}, Lgen/B;->n(IJ)I
:l27
if-gtz v146, :l211
:l28
if-eq v3, v8, :l65
:l29
shl-long/2addr v8, v4
:l30
move-exception v155
:l31
double-to-int v4, v2
:l32
nop 
:l33
invoke-static/range {v13 .. v179}, Lgen/C;->o(DLjava/lang/String;)V
:l34
add-int/lit8 v131, v233, -102
:l35
ushr-long/2addr v0, v12
:l36
if-ltz v125, :l49
:l37
or-int/lit16 v8, v5, 5579
:l38
rem-int/lit16 v11, v14, -26690
:l39
goto/32 :l119
:l40
neg-int v5, v2
:l41
mul-long/2addr v7, v0
:l42
move-object/from16 v53, v376
:l43
move/from16 v65, v455
:l44
if-lez v67, :l172
:l45
sub-int/2addr v8, v14
:l46
const/high16 v64, 0xc2c0000
:l47
iget-char v11, v5, Lgen/A;->f:I
:l48
rem-long v106, v167, v57
:l49
rem-int/lit8 v46, v98, 118
:l50
or-long/2addr v2, v6
:l51
mul-float/2addr v11, v4
:l52
xor-long/2addr v1, v10
:l53
mul-double v249, v44, v195
:l54
add-float v202, v13, v107
:l55
int-to-byte v14, v13
:l56
mul-int v16, v247, v136
:l57
aget-wide v148, v39, v5
:l58
add-double/2addr v0, v5
:l59
move/16 v219, v696
:l60
return-void 
:l61
const v166, 166112762
:l62
div-float/2addr v6, v10
:l63
sub-int v232, v198, v156
:l64
if-lt v11, v9, :l84
:l65
xor-int/2addr v1, v13
:l66
not-int v0, v1
:l67
add-double v52, v5, v184
:l68
aget-boolean v135, v216, v245
:l69
iput-short v12, v13, Lgen/C;->h:J
:l70
goto/16 :l7
:l71
int-to-long v2, v0
:l72
shl-int/lit8 v75, v65, -67
:l73
const-wide/high16 v4, 0x513000000000000L
:l74
const-wide/16 v237, 13099
:l75
neg-long v14, v4
:l76
aget-byte v27, v99, v170
:l77
xor-long v231, v171, v162
:l78
rem-int v168, v47, v105
:l79
rem-float v2, v60, v55
:l80
div-int/2addr v14, v2
:l81
ushr-long v231, v158, v183
:l82
iget-short v6, v8, Lgen/A;->f:I
:l83
const-class v147, Lgen/A;
:l84
add-float/2addr v1, v3
:l85
ushr-int v149, v62, v12
:l86
add-int/2addr v3, v13
:l87
xor-int/lit8 v171, v60, -38
:l88
and-int/lit8 v159, v230, -128
:l89
div-long v43, v244, v31
:l90
sput-char v149, Lgen/A;->f:I
:l91
shr-int/2addr v10, v3
:l92
aget-short v72, v84, v176
:l93
invoke-interface {}, Lgen/B;->n(IJ)I
:l94
cmpl-float v162, v33, v145
:l95
aput-boolean v201, v245, v63
:l96
sput-short v253, Lgen/A;->f:I
:l97
aget-object v92, v125, v177
:l98
if-le v2, v3, :l54
:l99
invoke-super/range {v198 .. v271}, Lgen/A;->m()V
:l100
mul-long v21, v58, v209
:l101
iput-object v9, v4, Lgen/C;->h:J
:l102
iput-wide v5, v4, Lgen/C;->h:J
:l103
if-ge v12, v4, :l169
:l104
div-float v10, v195, v79
:l105
if-eqz v249, :l22
:l106
iput-boolean v7, v8, Lgen/C;->h:J
:l107
double-to-float v2, v9
:l108
ushr-int/2addr v9, v5
:l109
packed-switch v73, :p109
:l110
invoke-virtual {v2, v10, v9, v3}, Lgen/B;->n(IJ)I
:l111
and-int/lit16 v1, v7, -22133
:l112
or-int/2addr v9, v2
:l113
long-to-double v7, v0
:l114
sget-boolean v38, Lgen/B;->g:Ljava/lang/String;
:l115
rem-float/2addr v3, v7
:l116
int-to-char v5, v8
:l117
move-result-wide v166
:l118
mul-double/2addr v2, v6
:l119
mul-int/lit16 v3, v1, 11525
:l120
sub-double/2addr v5, v4
:l121
invoke-interface/range {v223 .. v259}, Lgen/B;->n(IJ)I
:l122
add-long/2addr v9, v4
:l123
aput-byte v120, v206, v83
:l124
sput-boolean v236, Lgen/A;->f:I
:l125
int-to-short v11, v14
:l126
int-to-double v13, v0
:l127
mul-int/2addr v0, v1
:l128
sget-wide v53, Lgen/B;->g:Ljava/lang/String;
:l129
xor-int/lit16 v0, v12, 25199
:l130
const-wide/32 v239, -1191136083
:l131
move v3, v13
:l132
ushr-int/lit8 v19, v8, -115
:l133
add-long v28, v99, v28
:l134
div-int/lit16 v6, v9, 22813
:l135
iget-wide v10, v8, Lgen/A;->f:I
:l136
iget v12, v14, Lgen/C;->h:J
:l137
add-int/lit16 v0, v2, -16503
:l138
sget-object v233, Lgen/A;->f:I
:l139
shr-long/2addr v13, v3
:l140
float-to-long v1, v14
:l141
new-array v11, v4, Ljava/util/List;
:l142
move-result-object v235
:l143
and-int v137, v232, v68
:l144
sub-float v29, v197, v251
:l145
fill-array-data v206, :p145
:l146
iput-char v4, v3, Lgen/C;->h:J
:l147
move-wide v9, v1
:l148
move-wide/from16 v45, v696
:l149
xor-int v247, v7, v233
:l150
iget-byte v0, v10, Lgen/A;->f:I
:l151
div-long/2addr v14, v10
:l152
invoke-virtual/range {v235 .. v355}, Lgen/A;->m()V
:l153
array-length v10, v14
:l154
and-int/2addr v9, v0
:l155
new-instance v215, [I
:l156
double-to-long v13, v11
:l157
const/4 v5, -6
:l158
sget-short v61, Lgen/C;->h:J
:l159
const-string v71, "one"
:l160
aput-wide v43, v245, v49
:l161
monitor-exit v21
:l162
iput v6, v13, Lgen/B;->g:Ljava/lang/String;
:l163
move-object v13, v7
:l164
if-nez v254, :l29
:l165
shl-int/2addr v4, v9
:l166
cmp-long v159, v37, v223
:l167
const-string/jumbo v82, "four"
:l168
rem-double v56, v150, v254
:l169
and-long/2addr v3, v3
:l170
sub-double v219, v125, v113
:l171
sget v28, Lgen/B;->g:Ljava/lang/String;
:l172
mul-float v100, v167, v223
:l173
if-gez v81, :l182
:l174
throw v208
:l175
return v15
:l176
neg-float v7, v0
:l177
iput-byte v6, v7, Lgen/C;->h:J
:l178
sub-long/2addr v10, v11
:l179
move-result v177
:l180
if-ne v13, v3, :l207
:l181
rsub-int/lit8 v141, v104, -100
:l182
shr-int/lit8 v200, v168, 78
:l183
and-long v68, v30, v115
:l184
cmpg-double v73, v77, v191
:l185
instance-of v14, v6, [I
:l186
invoke-static {v14, v13, v13, v12, v2}, Lgen/B;->n(IJ)I
:l187
div-double/2addr v13, v1
:l188
if-gt v12, v0, :l70
:l189
shr-int v137, v179, v32
:l190
or-int v99, v225, v110
:l191
move-wide/16 v596, v32
:l192
aput-char v173, v175, v34
:l193
aput-short v180, v164, v11
:l194
rem-long/2addr v0, v14
:l195
add-int v52, v9, v211
:l196
mul-int/lit8 v232, v233, 2
:l197
div-int v137, v195, v213
:l198
long-to-float v2, v2
:l199
filled-new-array/range {v254 .. v344}, Ljava/lang/Object;
:l200
aput v180, v110, v254
:l201
return-wide v141
:l202
div-double v156, v217, v41
:l203
not-long v1, v6
:l204
rem-double/2addr v4, v3
:l205
filled-new-array {}, [I
:l206
cmpg-float v197, v68, v14
:l207
neg-double v13, v3
:l208
const/16 v240, -4586
:l209
check-cast v175, [[J
:l210
sput-wide v225, Lgen/C;->h:J
:l211
int-to-float v11, v7
:l212
sget-byte v115, Lgen/A;->f:I
:l213
sub-long v9, v79, v104
:l214
move-object/16 v540, v638
:l215
iget-boolean v10, v8, Lgen/A;->f:I
:l216
monitor-enter v209
goto :e
:e
return-void
:p3
.sparse-switch
-4 -> :l108
-1 -> :l147
2 -> :l176
5 -> :l82
8 -> :l138
.end sparse-switch
:p109
.packed-switch -6
:l108
:l152
:l108
:l165
:l208
.end packed-switch
:p145
.array-data 4
98
.end array-data
.end method
