.class public Lword/A;
.super Ljava/lang/Object;

.field static α:I

.method static β()V
    .registers 1
    const-string v0, "\ud800\udc00 \udbff\udfff"
    const-string v0, "\udc00\ud800"
    const-string v0, "\u007f\u0080\u07ff\u0800\uffff"
    return-void
.end method
