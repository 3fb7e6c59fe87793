.class public Lr/Rethrows;
.super Ljava/lang/Object;

.method public static inner(Ljava/lang/Object;)V
    .registers 3
    :a
    invoke-virtual {p0}, Ljava/lang/Object;->notify()V
    :b
    nop
    :c
    invoke-virtual {p0}, Ljava/lang/Object;->wait()V
    :d
    return-void
    .catch Ljava/lang/IllegalMonitorStateException; {:a .. :b} :h
    .catch Ljava/lang/InterruptedException; {:a .. :b} :i
    .catch Ljava/lang/RuntimeException; {:a .. :b} :h
    .catch Ljava/lang/Error; {:a .. :b} :i
    .catch Ljava/lang/Exception; {:a .. :b} :h
    .catch Ljava/lang/InterruptedException; {:c .. :d} :i
    :h
    move-exception v0
    throw v0
    :i
    move-exception v1
    return-void
.end method

.method public static always()V
    .registers 2
    :a
    const/4 v0, 0x0
    throw v0
    :b
    .catchall {:a .. :b} :c
    :c
    move-exception v1
    return-void
.end method
