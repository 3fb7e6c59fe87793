.class Lt/Nested;
.super Lt/Tries;

.method public deep()Ljava/lang/Object;
    .registers 4
    :a
    new-instance v0, Ljava/lang/Object;
    :b
    invoke-direct {v0}, Ljava/lang/Object;-><init>()V
    :c
    check-cast v0, Lt/Nested;
    :d
    return-object v0
    .catch Ljava/lang/Throwable; {:b .. :c} :x
    .catch Ljava/lang/ClassCastException; {:c .. :d} :y
    .catchall {:a .. :d} :z
    :x
    move-exception v1
    throw v1
    :y
    move-exception v1
    const/4 v0, 0x0
    return-object v0
    :z
    move-exception v1
    throw v1
.end method
