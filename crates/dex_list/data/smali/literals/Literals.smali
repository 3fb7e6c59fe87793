.class public Ll/Literals;
.super Ljava/lang/Object;

.method static all()V
    .registers 20
    const/4 v0, -0x8
    const/4 v15, 0x7
    const/16 v16, -0x8000
    const v17, 0x7fffffff
    const v17, -0x80000000
    const/high16 v1, -0x80000000
    const-wide/16 v2, 0x7fff
    const-wide/32 v2, -0x80000000
    const-wide v2, 0x7fffffffffffffffL
    const-wide v2, -0x8000000000000000L
    const-wide/high16 v2, -0x8000000000000000L
    const-string v4, "text"
    const-string/jumbo v4, "jumbo"
    const-class v5, [[J
    move-object/16 v18, v4
    move/from16 v0, v16
    move-wide/from16 v18, v2
    mul-int/lit8 v0, v0, -0x80
    rsub-int v0, v0, -0x8000
    ushr-int/lit8 v0, v0, 0x1f
    return-void
.end method
