.class public Lr/Ranges;
.super Ljava/lang/Object;

.method static many(JDLjava/lang/String;[[IZBCSF)V
    .registers 20
    invoke-static/range {p0 .. p10}, Lr/Ranges;->many(JDLjava/lang/String;[[IZBCSF)V
    invoke-direct/range {p4 .. p4}, Lr/Ranges;->own()V
    invoke-virtual/range {p4 .. p5}, Ljava/lang/String;->equals(Ljava/lang/Object;)Z
    move-result v0
    invoke-interface/range {p4 .. p4}, Ljava/lang/Runnable;->run()V
    invoke-super/range {p4 .. p4}, Ljava/lang/Object;->hashCode()I
    return-void
.end method

.method private own()V
    .registers 1
    return-void
.end method
