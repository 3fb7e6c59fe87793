.class final La/Reads;
.super La/B;

.field static k:F

.method static read(La/A;La/C;)V
    .registers 4
    sget v0, La/A;->a:I
    iget-boolean v0, p0, La/A;->d:Z
    iget-object v1, p1, La/C;->e:[La/A;
    sget-wide v0, La/B;->b:J
    return-void
.end method
