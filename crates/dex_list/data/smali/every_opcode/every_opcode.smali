.class public Lgen/A1;
.super Ljava/lang/Object;
.method public static m0()V
.registers 700
:l0
int-to-char v6, v10
:l1
mul-int/2addr v9, v12
:l2
filled-new-array/range {v164 .. v333}, [[J
:l3
new-array v0, v11, Lgen/A;
:l4
add-float v32, v247, v54
:l5
aget-object v224, v12, v78
:l6
iget-byte v1, v13, Lgen/A;->f:I
:l7
sub-int/2addr v4, v14
:l8
rem-double v240, v76, v190
:l9
filled-new-array {v6}, Ljava/util/List;
:l10
goto/16 :l64
:l11
return-void 
:l12
and-int v33, v2, v143
:l13
and-long/2addr v14, v13
:l14
div-long/2addr v0, v9
:l15
move-result-object v209
:l16
div-double/2addr v3, v14
:l17
sput-char v145, Lgen/B;->g:Ljava/lang/String;
:l18
mul-int v43, v211, v222
:l19
fill-array-data v222, :p19
:l20
mul-long/2addr v1, v3
:l21
shl-int/2addr v9, v10
:l22
sparse-switch v229, :p22
:l23
aget-short v240, v170, v99
:l24
sget v75, Lgen/C;->h:J
:l25
iput-wide v7, v0, Lgen/B;->g:Ljava/lang/String;
:l26
sub-long v156, v223, v102
:l27
or-long/2addr v14, v4
:l28
int-to-long v0, v2
:l29
move-exception v51
:l30
add-int v219, v83, v207
:l31
and-int/lit16 v9, v12, -15055
:l32
const/16 v86, 23493
:l33
if-lez v54, :l68
:l34
iget-char v10, v1, Lgen/B;->g:Ljava/lang/String;
:l35
sub-float v238, v140, v88
:l36
check-cast v234, Ljava/util/List;
:l37
const v124, 139674118
:l38
invoke-super {}, Lgen/A;->m()V
:l39
div-float v21, v34, v43
:l40
neg-int v2, v14
:l41
iget-wide v8, v3, Lgen/B;->g:Ljava/lang/String;
:l42
array-length v12, v5
:l43
sget-boolean v153, Lgen/C;->h:J
:l44
long-to-float v13, v4
:l45
move-result v94
:l46
shr-long/2addr v5, v5
:l47
const/4 v1, 1
:l48
int-to-double v3, v13
:l49
sget-object v241, Lgen/C;->h:J
:l50
and-int/2addr v12, v11
:l51
invoke-interface {v2, v9, v8}, Lgen/A;->m()V
:l52
iput-char v5, v0, Lgen/B;->g:Ljava/lang/String;
:l53
iput-byte v1, v6, Lgen/A;->f:I
:l54
return v212
:l55
return-object v32
:l56
if-ltz v87, :l29
:l57
xor-long v157, v150, v200
:l58
shr-int/lit8 v237, v96, -89
:l59
const-class v146, Ljava/util/List;
:l60
rem-float/2addr v3, v9
:l61
add-long/2addr v1, v4
:l62
mul-double v93, v228, v75
:l63
move-object/16 v577, v547
:l64
move-wide v14, v1
:l65
instance-of v7, v14, Lgen/A;
:l66
rem-long v27, v201, v11
:l67
const-wide/32 v211, -877298852
:l68
rem-long/2addr v9, v10
:l69
mul-int/lit16 v0, v1, 21434
:l70
move/16 v117, v40
:l71
sput-short v48, Lgen/A;->f:I
:l72
packed-switch v201, :p72
:l73
invoke-static/range {v81 .. v272}, Lgen/A;->m()V
:l74
div-float/2addr v6, v14
:l75
sput v246, Lgen/B;->g:Ljava/lang/String;
:l76
invoke-direct {v14, v13, v4, v8}, Ljava/lang/Object;-><init>()V
:l77
rem-int/lit16 v11, v7, 8448
:l78
shr-int v25, v53, v166
:l79
ushr-int v81, v10, v6
:l80
if-ge v0, v12, :l75
:l81
not-long v11, v9
:l82
div-int v81, v115, v100
:l83
add-int/lit16 v5, v6, -24516
:l84
and-long v16, v233, v81
:l85
cmpl-double v248, v153, v248
:l86
aget v116, v28, v64
:l87
div-long v55, v200, v158
:l88
if-le v12, v14, :l138
:l89
ushr-long/2addr v13, v11
:l90
aput-boolean v120, v169, v91
:l91
aget-char v66, v46, v138
:l92
or-int/lit8 v53, v78, -27
:l93
add-double v63, v92, v20
:l94
int-to-byte v13, v4
:l95
if-eq v1, v12, :l114
:l96
mul-int/lit8 v23, v166, 45
:l97
or-int v240, v58, v99
:l98
add-float/2addr v4, v0
:l99
invoke-super/range {v167 .. v215}, Ljava/lang/Object;-><init>()V
:l100
iput-object v12, v13, Lgen/C;->h:J
:l101
ushr-int/lit8 v228, v235, 27
:l102
sub-float/2addr v3, v5
:l103
cmpg-float v25, v139, v156
:l104
aput-char v148, v206, v152
:l105
rem-int/2addr v1, v3
:l106
and-int/lit8 v56, v5, -4
:l107
if-lt v6, v1, :l68
:l108
rsub-int/lit8 v141, v222, -92
:l109
aput-object v186, v19, v5
:l110
rem-double/2addr v10, v0
:l111
aput-wide v74, v192, v202
:l112
rem-float v91, v126, v120
:l113
sput-object v220, Lgen/A;->f:I
:l114
move v1, v8
:l115
monitor-enter v199
:l116
aget-boolean v203, v83, v19
:l117
neg-double v8, v10
:l118
const/high16 v44, 0x2df80000
:l119
iput v12, v2, Lgen/A;->f:I
:l120
if-ne v13, v13, :l81
:l121
div-double v78, v27, v181
:l122
mul-float v131, v213, v235
:l123
iget-boolean v9, v4, Lgen/A;->f:I
:l124
shr-long v228, v52, v36
:l125
sget-wide v139, Lgen/C;->h:J
:l126
throw v8
:l127
move-result-wide v199
:l128
add-int/lit8 v80, v210, -23
:l129
add-double/2addr v2, v4
:l130
float-to-int v6, v8
:l131
sget-char v40, Lgen/A;->f:I
:l132
mul-long v182, v220, v170
:l133
int-to-short v3, v4
:l134
goto/32 :l199
:l135
const-string/jumbo v16, "four"
:l136
double-to-float v12, v6
:l137
or-int/2addr v8, v4
:l138
const-wide/16 v138, 24824
:l139
sget-short v217, Lgen/C;->h:J
:l140
sget-byte v116, Lgen/A;->f:I
:l141
cmpl-float v101, v214, v86
:l142
sub-double v43, v66, v124
:l143
invoke-virtual {}, Lgen/C;->o(DLjava/lang/String;)V
:l144
aget-wide v249, v146, v4
:l145
long-to-int v0, v11
:l146
move-object/from16 v90, v593
:l147
sput-byte v35, Lgen/C;->h:J
:l148
shl-long v32, v35, v66
:l149
float-to-double v13, v4
:l150
aput-byte v101, v144, v102
:l151
iget-object v2, v9, Lgen/A;->f:I
:l152
cmp-long v59, v124, v1
:l153
double-to-long v2, v8
:l154
ushr-int/2addr v5, v8
:l155
double-to-int v14, v10
:l156
iput-boolean v14, v7, Lgen/C;->h:J
:l157
rem-int/lit8 v163, v187, -13
:l158
iget v3, v5, Lgen/B;->g:Ljava/lang/String;
:l159
cmpg-double v175, v122, v244
:l160
const-wide/high16 v57, 0x6988000000000000L
:l161
shl-int v86, v143, v156
:l162
invoke-static {v14, v10, v4, v10, v3}, Lgen/A;->m()V
:l163
mul-float/2addr v14, v1
:l164
aput-short v195, v130, v165
:l165
neg-float v14, v5
:l166
xor-int/2addr v2, v8
:l167
div-int/2addr v12, v12
:l168
iput-short v14, v3, Lgen/B;->g:Ljava/lang/String;
:l169
if-gtz v76, :l177
:l170
xor-int v76, v217, v141
:l171
div-int/lit8 v95, v42, 109
:l172
invoke-interface/range {v304 .. v326}, Lgen/A;->m()V
:l173
if-nez v229, :l155
:l174
sub-int v245, v131, v146
:l175
shl-long/2addr v6, v2
:l176
invoke-virtual/range {v79 .. v144}, Lgen/C;->o(DLjava/lang/String;)V
:l177
if-eqz v55, :l145
:l178
shr-int/2addr v11, v12
:l179
or-int/lit16 v12, v0, 32116
:l180
move/from16 v174, v403
:l181
rem-int v183, v163, v89
:l182
shl-int/lit8 v98, v131, -44
:l183
move-wide/16 v557, v41
:l184
move-wide/from16 v134, v92
:l185
rsub-int v12, v4, -19524
:l186
iget-short v4, v11, Lgen/A;->f:I
:l187
const-string v245, "two"
:l188
or-long v248, v198, v157
:l189
if-gez v215, :l168
:l190
xor-long/2addr v10, v11
:l191
aput v20, v113, v217
:l192
not-int v14, v3
:l193
sub-long/2addr v13, v6
:l194
nop 
:l195
xor-int/lit8 v240, v205, 93
:l196
ushr-long v101, v42, v232
:l197
invoke-direct/range {v166 .. v279}, Lgen/B;->n(IJ)I
:l198
sput-boolean v159, Lgen/B;->g:Ljava/lang/String;
:l199
move-object v3, v1
:l200
long-to-double v6, v9
:l201
const-wide v136, 7550179348477730778L
:l202
if-gt v10, v4, :l71
:l203
div-int/lit16 v3, v6, -32243
:l204
sput-wide v245, Lgen/A;->f:I
:l205
add-int/2addr v8, v7
:l206
int-to-float v9, v0
:l207
neg-long v0, v10
:l208
sub-double/2addr v9, v3
:l209
float-to-long v13, v4
:l210
monitor-exit v52
:l211
aget-byte v44, v72, v37
:l212
return-wide v138
:l213
mul-double/2addr v3, v4
:l214
xor-int/lit16 v4, v9, 115
:l215
add-long v213, v174, v114
:l216
new-instance v202, [I
goto :e
:e
return-void
:p19
.array-data 2
90
79
65
4
48
25
.end array-data
:p22
.sparse-switch
-4 -> :l151
-1 -> :l49
2 -> :l126
5 -> :l26
.end sparse-switch
:p72
.packed-switch -2
:l107
:l41
:l29
:l115
:l42
.end packed-switch
.end method
.method public static m1()V
.registers 700
:l0
mul-long/2addr v1, v9
:l1
return-void 
:l2
if-lez v177, :l44
:l3
sput-byte v24, Lgen/A;->f:I
:l4
if-gez v102, :l59
:l5
iput-wide v7, v7, Lgen/B;->g:Ljava/lang/String;
:l6
mul-float v192, v43, v249
:l7
or-int v59, v60, v209
:l8
if-eq v4, v7, :l140
:l9
xor-int/lit8 v148, v99, -20
:l10
add-float v115, v183, v66
:l11
ushr-int v84, v127, v151
:l12
move-exception v28
:l13
mul-long v232, v54, v254
:l14
instance-of v1, v0, Ljava/lang/Object;
:l15
and-long/2addr v12, v0
:l16
aput-object v219, v122, v81
:l17
filled-new-array {v13, v9, v4}, [I
:l18
cmpl-double v102, v40, v225
:l19
aput v211, v194, v165
:l20
rem-int/lit8 v38, v203, -113
:l21
long-to-double v0, v6
:l22
goto/32 :l37
:l23
shr-long v224, v170, v138
:l24
xor-long/2addr v0, v9
:l25
add-float/2addr v6, v4
:l26
div-long v33, v20, v118
:l27
mul-int/lit16 v10, v13, 6999
:l28
move-object v14, v0
:l29
and-int/lit8 v9, v137, -97
:l30
const-wide v134, -6845120758797884662L
:l31
xor-int v238, v70, v199
:l32
const-wide/32 v30, -289867681
:l33
sub-float v48, v7, v127
:l34
mul-int/2addr v10, v2
:l35
iput-char v11, v4, Lgen/C;->h:J
:l36
rsub-int v13, v13, -7612
:l37
div-int v169, v114, v99
:l38
aput-char v84, v161, v68
:l39
return-wide v248
:l40
not-int v4, v10
:l41
shr-int v162, v62, v62
:l42
cmpl-float v15, v150, v239
:l43
mul-int/lit8 v201, v151, -39
:l44
filled-new-array/range {v179 .. v289}, Ljava/util/List;
:l45
move-result v178
:l46
goto/16 :l143
:l47
move-wide v10, v8
:l48
xor-long v248, v15, v231
:l49
div-int/2addr v5, v8
:l50
add-int/lit8 v105, v137, -26
:l51
return v182
:l52
cmp-long v225, v137, v108
:l53
xor-int/lit16 v14, v10, -23582
:l54
shl-int/2addr v11, v4
:l55
const-wide/high16 v190, 0x1281000000000000L
:l56
mul-int v64, v45, v249
:l57
if-eqz v24, :l38
:l58
if-ltz v15, :l52
:l59
long-to-int v13, v6
:l60
move v13, v0
:l61
iput-boolean v0, v10, Lgen/A;->f:I
:l62
invoke-interface/range {v262 .. v383}, Ljava/lang/Object;-><init>()V
:l63
div-long/2addr v1, v5
:l64
rem-long v10, v32, v136
:l65
rem-int/2addr v0, v7
:l66
rem-float v170, v32, v229
:l67
long-to-float v6, v12
:l68
aget v181, v230, v225
:l69
const-wide/16 v114, -29542
:l70
rem-double/2addr v11, v8
:l71
iget-wide v4, v1, Lgen/B;->g:Ljava/lang/String;
:l72
and-long v204, v83, v21
:l73
monitor-enter v77
:l74
invoke-direct/range {v17 .. v238}, Lgen/C;->o(DLjava/lang/String;)V
:l75
sub-int/2addr v0, v11
:l76
iget-char v4, v5, Lgen/C;->h:J
:l77
sget-char v33, Lgen/B;->g:Ljava/lang/String;
:l78
shr-long/2addr v12, v6
:l79
or-int/lit16 v12, v1, 7044
:l80
mul-double v24, v108, v215
:l81
not-long v3, v8
:l82
int-to-float v8, v3
:l83
cmpg-double v84, v236, v86
:l84
invoke-virtual/range {v260 .. v461}, Lgen/C;->o(DLjava/lang/String;)V
:l85
aget-char v244, v229, v149
:l86
move-object/16 v492, v107
:l87
rem-int/lit16 v2, v10, 26032
:l88
neg-float v8, v8
:l89
packed-switch v184, :p89
:l90
and-int/lit16 v11, v2, -6557
:l91
sget-byte v94, Lgen/B;->g:Ljava/lang/String;
:l92
double-to-long v8, v5
:l93
const-string v24, "four"
:l94
fill-array-data v88, :p94
:l95
float-to-double v0, v4
:l96
new-array v13, v12, Ljava/util/List;
:l97
or-long v80, v106, v76
:l98
iget-short v5, v5, Lgen/B;->g:Ljava/lang/String;
:l99
if-lt v5, v11, :l191
:l100
move-result-wide v133
:l101
iput-short v8, v0, Lgen/C;->h:J
:l102
const v31, -1508579353
:l103
sget-wide v234, Lgen/C;->h:J
:l104
aget-boolean v83, v200, v83
:l105
int-to-double v9, v1
:l106
int-to-byte v7, v4
:l107
if-nez v122, :l116
:l108
iput-object v14, v5, Lgen/C;->h:J
:l109
ushr-long/2addr v6, v13
:l110
int-to-short v14, v14
:l111
move-object/from16 v20, v592
:l112
if-le v12, v0, :l34
:l113
add-int/lit16 v0, v8, 31742
:l114
mul-float/2addr v9, v13
:l115
move-result-object v254
:l116
int-to-long v4, v12
:l117
add-double/2addr v3, v11
:l118
shr-int/2addr v9, v11
:l119
aget-byte v86, v92, v253
:l120
shl-int/lit8 v241, v204, 61
:l121
const/high16 v103, 0x4eb00000
:l122
aget-wide v118, v153, v250
:l123
array-length v5, v8
:l124
invoke-static {v2, v0, v2, v4}, Lgen/B;->n(IJ)I
:l125
if-gtz v144, :l34
:l126
rem-float/2addr v14, v1
:l127
iget-object v2, v12, Lgen/B;->g:Ljava/lang/String;
:l128
invoke-direct {v9, v0, v12, v1, v8}, Ljava/lang/Object;-><init>()V
:l129
aget-short v182, v27, v52
:l130
add-long/2addr v4, v1
:l131
move/from16 v161, v584
:l132
const/4 v8, -6
:l133
cmpg-float v218, v18, v203
:l134
aput-wide v217, v55, v164
:l135
sput-char v214, Lgen/A;->f:I
:l136
throw v130
:l137
ushr-long v220, v110, v5
:l138
move-wide/from16 v151, v376
:l139
aput-short v230, v216, v124
:l140
aget-object v181, v206, v72
:l141
and-int/2addr v3, v14
:l142
return-object v51
:l143
mul-double/2addr v9, v7
:l144
invoke-virtual {v6}, Lgen/C;->o(DLjava/lang/String;)V
:l145
invoke-super/range {v345 .. v439}, Lgen/B;->n(IJ)I
:l146
sput-boolean v204, Lgen/B;->g:Ljava/lang/String;
:l147
div-double v185, v18, v208
:l148
add-int v215, v249, v65
:l149
sget-boolean v104, Lgen/A;->f:I
:l150
div-float v2, v191, v136
:l151
or-long/2addr v12, v6
:l152
sub-long/2addr v8, v14
:l153
sparse-switch v124, :p153
:l154
ushr-int/2addr v9, v14
:l155
invoke-super {v12, v9, v9, v6}, Lgen/A;->m()V
:l156
int-to-char v5, v13
:l157
add-double v252, v117, v1
:l158
neg-double v3, v4
:l159
if-ne v11, v11, :l164
:l160
double-to-float v0, v8
:l161
shl-long v30, v210, v77
:l162
sub-double v131, v227, v254
:l163
aput-boolean v191, v80, v248
:l164
rem-long/2addr v12, v8
:l165
shl-int v165, v146, v254
:l166
rsub-int/lit8 v141, v72, 82
:l167
sput-wide v138, Lgen/C;->h:J
:l168
sput v104, Lgen/C;->h:J
:l169
rem-double v161, v148, v78
:l170
const-class v115, Lgen/A;
:l171
float-to-long v2, v8
:l172
sub-float/2addr v7, v9
:l173
iput-byte v2, v8, Lgen/A;->f:I
:l174
sput-short v64, Lgen/C;->h:J
:l175
rem-int v2, v254, v108
:l176
iget-boolean v11, v10, Lgen/C;->h:J
:l177
sget v9, Lgen/B;->g:Ljava/lang/String;
:l178
neg-long v6, v6
:l179
neg-int v4, v14
:l180
or-int/lit8 v168, v229, -119
:l181
nop 
:l182
iput v14, v1, Lgen/A;->f:I
:l183
sub-int v216, v1, v98
:l184
shr-int/lit8 v68, v118, 11
:l185
xor-int/2addr v12, v12
:l186
div-int/lit16 v5, v10, 30332
:l187
invoke-static/range {v393 .. v480}, Lgen/C;->o(DLjava/lang/String;)V
:l188
iget-byte v7, v12, Lgen/A;->f:I
:l189
div-int/lit8 v123, v90, -54
:l190
sget-short v106, Lgen/A;->f:I
:l191
double-to-int v0, v2
:l192
const/16 v208, 1341
:l193
new-instance v94, [I
:l194
add-int/2addr v9, v12
:l195
shl-long/2addr v4, v6
:l196
sub-double/2addr v4, v8
:l197
or-int/2addr v4, v11
:l198
iget v6, v11, Lgen/B;->g:Ljava/lang/String;
:l199
ushr-int/lit8 v110, v85, 120
:l200
move/16 v220, v503
:l201
div-float/2addr v6, v11
:l202
add-long v108, v23, v16
:l203
monitor-exit v33
:l204
move-wide/16 v211, v153
:l205
const-string/jumbo v58, "one"
:l206
aput-byte v26, v64, v39
:l207
if-ge v7, v12, :l25
:l208
sput-object v102, Lgen/C;->h:J
:l209
sub-long v185, v47, v213
:l210
if-gt v0, v1, :l109
:l211
div-double/2addr v9, v0
:l212
check-cast v140, [I
:l213
invoke-interface {v6, v5, v0, v10}, Lgen/A;->m()V
:l214
float-to-int v11, v8
:l215
sget-object v173, Lgen/B;->g:Ljava/lang/String;
:l216
and-int v213, v171, v189
goto :e
:e
return-void
:p89
.packed-switch 0
:l179
:l133
:l137
:l7
:l212
.end packed-switch
:p94
.array-data 1
73
.end array-data
:p153
.sparse-switch
-4 -> :l103
.end sparse-switch
.end method
.method public static m2()V
.registers 700
:l0
mul-int/lit16 v11, v5, -23715
:l1
neg-double v10, v8
:l2
rem-float/2addr v5, v8
:l3
const-wide v142, 2196004980300263569L
:l4
sput-short v114, Lgen/C;->h:J
:l5
sub-long/2addr v2, v2
:l6
add-long v19, v233, v148
:l7
aput-short v36, v173, v225
:l8
rem-long v211, v55, v123
:l9
not-long v13, v12
:l10
cmpg-double v217, v196, v85
:l11
neg-float v5, v14
:l12
xor-int v74, v40, v39
:l13
iput-wide v13, v12, Lgen/B;->g:Ljava/lang/String;
:l14
filled-new-array {v6, v1, v9}, [I
:l15
if-eqz v69, :l75
:l16
sget-wide v170, Lgen/C;->h:J
:l17
or-int v204, v163, v154
:l18
invoke-super/range {v4 .. v142}, Lgen/A;->m()V
:l19
if-gtz v235, :l208
:l20
if-ge v10, v2, :l97
:l21
move-wide v11, v8
:l22
iget-char v14, v1, Lgen/B;->g:Ljava/lang/String;
:l23
rem-int/2addr v0, v12
:l24
sub-int v110, v153, v173
:l25
shl-long v108, v70, v238
:l26
neg-int v5, v6
:l27
rsub-int/lit8 v103, v155, 108
:l28
iget-object v0, v1, Lgen/B;->g:Ljava/lang/String;
:l29
move-exception v199
:l30
rem-double/2addr v0, v10
:l31
ushr-int/lit8 v180, v178, -128
:l32
xor-long/2addr v12, v0
:l33
and-long v212, v28, v150
:l34
int-to-long v2, v8
:l35
if-ne v8, v12, :l91
:l36
ushr-long/2addr v8, v4
:l37
add-long/2addr v12, v9
:l38
or-int/lit16 v14, v10, 13948
:l39
long-to-float v12, v7
:l40
int-to-byte v13, v11
:l41
if-nez v62, :l206
:l42
const/high16 v159, 0x3d640000
:l43
if-lez v27, :l143
:l44
if-ltz v243, :l91
:l45
sget-boolean v223, Lgen/A;->f:I
:l46
double-to-int v1, v12
:l47
ushr-int/2addr v0, v14
:l48
if-gt v11, v5, :l108
:l49
sget-byte v225, Lgen/C;->h:J
:l50
move-object/from16 v88, v259
:l51
aget-wide v168, v160, v254
:l52
move v14, v12
:l53
const-wide/32 v234, -279719757
:l54
move/16 v385, v367
:l55
xor-long v75, v193, v208
:l56
shl-int v87, v112, v204
:l57
sget-object v179, Lgen/A;->f:I
:l58
const v162, -1527404287
:l59
const/16 v87, -17892
:l60
add-double/2addr v14, v8
:l61
double-to-long v2, v8
:l62
or-long v164, v160, v124
:l63
move-object/16 v349, v124
:l64
shr-long/2addr v9, v0
:l65
move-wide/from16 v122, v214
:l66
const/4 v6, -3
:l67
mul-int/lit8 v101, v183, -12
:l68
sput v25, Lgen/A;->f:I
:l69
invoke-virtual/range {v171 .. v420}, Ljava/lang/Object;-><init>()V
:l70
cmpl-float v168, v62, v200
:l71
invoke-static/range {v346 .. v465}, Lgen/C;->o(DLjava/lang/String;)V
:l72
invoke-direct/range {v189 .. v316}, Lgen/B;->n(IJ)I
:l73
iput-boolean v6, v7, Lgen/B;->g:Ljava/lang/String;
:l74
cmp-long v138, v30, v146
:l75
aget-char v124, v237, v68
:l76
add-double v214, v32, v38
:l77
new-instance v3, [[J
:l78
sparse-switch v106, :p78
:l79
new-array v0, v10, Ljava/lang/Object;
:l80
and-long/2addr v2, v7
:l81
move-result v196
:l82
sget-short v96, Lgen/C;->h:J
:l83
shl-int/lit8 v128, v204, 19
:l84
sput-char v234, Lgen/A;->f:I
:l85
div-int/2addr v2, v8
:l86
nop 
:l87
rsub-int v13, v1, 601
:l88
sub-long v4, v118, v101
:l89
throw v207
:l90
iput-object v10, v11, Lgen/C;->h:J
:l91
add-int v202, v233, v58
:l92
shl-long/2addr v8, v11
:l93
mul-double v100, v253, v1
:l94
rem-int/lit8 v139, v205, -1
:l95
div-long v251, v108, v232
:l96
mul-long v40, v169, v45
:l97
iput-char v5, v10, Lgen/A;->f:I
:l98
rem-int/lit16 v1, v12, -11673
:l99
aput-byte v44, v96, v149
:l100
move-wide/16 v22, v525
:l101
invoke-interface {v6}, Lgen/B;->n(IJ)I
:l102
div-int/lit8 v203, v10, -31
:l103
iget-short v11, v8, Lgen/C;->h:J
:l104
move-result-wide v156
:l105
const-class v167, Ljava/util/List;
:l106
instance-of v1, v3, [[J
:l107
sget v199, Lgen/B;->g:Ljava/lang/String;
:l108
int-to-double v1, v9
:l109
return-wide v164
:l110
return v12
:l111
or-long/2addr v6, v1
:l112
int-to-char v8, v1
:l113
div-float/2addr v10, v13
:l114
iget-byte v7, v0, Lgen/C;->h:J
:l115
goto/16 :l61
:l116
sub-float/2addr v12, v0
:l117
add-int/lit16 v0, v13, 8127
:l118
invoke-virtual {v4, v11, v6}, Lgen/B;->n(IJ)I
:l119
sput-wide v152, Lgen/A;->f:I
:l120
iput v8, v11, Lgen/B;->g:Ljava/lang/String;
:l121
return-object v197
:l122
sub-int/2addr v8, v10
:l123
shr-int/lit8 v114, v253, 85
:l124
goto/32 :l141
:l125
aget-boolean v42, v178, v101
:l126
move-object v11, v6
:l127
ushr-int v206, v51, v126
:l128
neg-long v13, v4
:l129
cmpl-double v92, v237, v38
:l130
or-int/lit8 v66, v145, 15
:l131
or-int/2addr v13, v2
:l132
aget v199, v184, v159
:l133
int-to-float v1, v11
:l134
sget-char v92, Lgen/B;->g:Ljava/lang/String;
:l135
sub-double/2addr v14, v2
:l136
div-double/2addr v4, v4
:l137
float-to-int v4, v5
:l138
add-int/2addr v6, v4
:l139
iget-boolean v9, v7, Lgen/A;->f:I
:l140
mul-float/2addr v2, v2
:l141
xor-int/lit8 v245, v64, -13
:l142
add-float v50, v18, v205
:l143
shr-long v148, v137, v158
:l144
add-float/2addr v3, v8
:l145
mul-float v109, v183, v223
:l146
mul-int v61, v147, v35
:l147
rem-double v141, v117, v100
:l148
shr-int v182, v50, v21
:l149
invoke-super {v14, v1, v2, v12, v10}, Lgen/A;->m()V
:l150
if-eq v0, v11, :l103
:l151
rem-long/2addr v6, v6
:l152
array-length v10, v2
:l153
filled-new-array/range {v302 .. v455}, [I
:l154
invoke-direct {v8, v8, v1, v14, v3}, Lgen/C;->o(DLjava/lang/String;)V
:l155
aget-object v35, v73, v51
:l156
aput-wide v169, v184, v252
:l157
aput-object v101, v91, v191
:l158
mul-double/2addr v13, v2
:l159
if-gez v57, :l76
:l160
const-wide/high16 v181, 0x24d0000000000000L
:l161
iget-wide v5, v7, Lgen/C;->h:J
:l162
invoke-interface/range {v149 .. v172}, Ljava/lang/Object;-><init>()V
:l163
rem-float v53, v180, v118
:l164
rem-int v5, v74, v204
:l165
return-void 
:l166
aput v207, v159, v151
:l167
iput-short v1, v9, Lgen/B;->g:Ljava/lang/String;
:l168
mul-int/2addr v12, v7
:l169
move/from16 v65, v633
:l170
const-string v14, "one"
:l171
long-to-double v13, v12
:l172
iput-byte v5, v2, Lgen/A;->f:I
:l173
div-float v244, v236, v161
:l174
xor-int/lit16 v13, v1, -18021
:l175
and-int v218, v111, v162
:l176
sub-double v150, v62, v190
:l177
float-to-long v3, v8
:l178
aput-char v129, v101, v31
:l179
div-int v233, v231, v252
:l180
invoke-static {v3, v13, v6, v10, v14}, Lgen/B;->n(IJ)I
:l181
aget-byte v208, v183, v148
:l182
int-to-short v4, v11
:l183
packed-switch v0, :p183
:l184
if-lt v12, v9, :l96
:l185
mul-long/2addr v10, v7
:l186
sub-float v139, v157, v59
:l187
sput-object v68, Lgen/A;->f:I
:l188
fill-array-data v163, :p188
:l189
const-string/jumbo v235, "two"
:l190
and-int/lit8 v218, v105, 12
:l191
ushr-long v196, v169, v107
:l192
monitor-enter v102
:l193
sput-byte v69, Lgen/B;->g:Ljava/lang/String;
:l194
float-to-double v1, v10
:l195
double-to-float v13, v13
:l196
shl-int/2addr v2, v2
:l197
iget v8, v0, Lgen/B;->g:Ljava/lang/String;
:l198
not-int v12, v0
:l199
and-int/2addr v7, v3
:l200
check-cast v100, Ljava/util/List;
:l201
sput-boolean v210, Lgen/B;->g:Ljava/lang/String;
:l202
const-wide/16 v232, -855
:l203
div-double v24, v19, v173
:l204
xor-int/2addr v11, v0
:l205
if-le v13, v6, :l213
:l206
div-int/lit16 v7, v3, -10064
:l207
move-result-object v152
:l208
div-long/2addr v8, v3
:l209
and-int/lit16 v13, v8, 17668
:l210
add-int/lit8 v133, v92, -28
:l211
long-to-int v3, v5
:l212
cmpg-float v168, v224, v150
:l213
aput-boolean v251, v193, v198
:l214
shr-int/2addr v1, v5
:l215
aget-short v231, v13, v117
:l216
monitor-exit v11
goto :e
:e
return-void
:p78
.sparse-switch
-4 -> :l204
.end sparse-switch
:p183
.packed-switch -3
:l207
.end packed-switch
:p188
.array-data 4
85
.end array-data
.end method
