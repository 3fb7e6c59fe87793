.class public Lc/Calls;
.super Landroid/app/Activity;

.method public onCreate(Landroid/os/Bundle;)V
    .registers 10
    invoke-super {p0, p1}, Landroid/app/Activity;->onCreate(Landroid/os/Bundle;)V
    const-wide v0, 0x1122334455667788L
    const/high16 v2, 0x3f800000
    const-wide/high16 v3, 0x4000000000000000L
    invoke-static/range {v0 .. v7}, Lc/Calls;->eight(JIJIII)V
    invoke-virtual {p0, v2, v2, v2, v2}, Lc/Calls;->four(IIII)I
    move-result v2
    invoke-interface {p0}, Ljava/lang/Runnable;->run()V
    goto/16 :end
    nop
    :end
    return-void
.end method

.method static eight(JIJIII)V
    .registers 8
    return-void
.end method

.method public four(IIII)I
    .registers 6
    add-int/2addr p1, p2
    if-ge p1, p3, :more
    goto :less
    :more
    add-int/lit8 p1, p1, -0x1
    add-int/lit16 p1, p1, 0x1000
    :less
    return p1
.end method
